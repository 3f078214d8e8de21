define float @f0() {
entry:
  ret float 0x36A0000000000000
}
define float @f1() {
entry:
  ret float 0xB6A0000000000000
}
define float @f2() {
entry:
  ret float 0x36B0000000000000
}
define float @f3() {
entry:
  ret float 0x36B8000000000000
}
define float @f4() {
entry:
  ret float 0x380FFFFFC0000000
}
define float @f5() {
entry:
  ret float 0x3810000000000000
}
define float @f6() {
entry:
  ret float 0x47EFFFFFE0000000
}
define float @f7() {
entry:
  ret float 0x7FF0000000000000
}
define float @f8() {
entry:
  ret float 0xFFF0000000000000
}
define float @f9() {
entry:
  ret float 0x7FF8000000000000
}
define float @f10() {
entry:
  ret float 0x7FF0000020000000
}
