define float @f() {
entry:
  ret float 0x0000000000000001
}
