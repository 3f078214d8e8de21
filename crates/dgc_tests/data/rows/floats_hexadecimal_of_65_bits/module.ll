define double @f() {
entry:
  ret double 0x10000000000000000
}
