define double @f() {
entry:
  ret double 0x
}
