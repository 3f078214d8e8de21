define double @f() {
entry:
  ret double true
}
