define double @f() {
entry:
  ret double null
}
