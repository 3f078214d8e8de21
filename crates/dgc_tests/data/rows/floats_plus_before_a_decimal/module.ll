define double @f() {
entry:
  ret double +1.0
}
