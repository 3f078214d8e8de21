define double @f() {
entry:
  ret double 0xK3FFF8000000000000000
}
