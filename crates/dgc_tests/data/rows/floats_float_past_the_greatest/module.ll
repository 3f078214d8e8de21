define float @f() {
entry:
  ret float 0x47EFFFFFF0000000
}
