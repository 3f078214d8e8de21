define float @f() {
entry:
  ret float 0x3690000000000000
}
