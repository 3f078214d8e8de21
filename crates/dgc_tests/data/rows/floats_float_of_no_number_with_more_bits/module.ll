define float @f() {
entry:
  ret float 0x7FF0000000000001
}
