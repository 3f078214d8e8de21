define double @f() {
entry:
  ret double -5
}
