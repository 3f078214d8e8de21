define float @f() {
entry:
  ret float 0x3FB999999999999A
}
