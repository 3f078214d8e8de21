define double @f() {
entry:
  ret double inf
}
