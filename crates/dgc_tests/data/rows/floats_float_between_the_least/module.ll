define float @f() {
entry:
  ret float 0x36A8000000000000
}
