define float @f0() {
entry:
  ret float 1.25e+00
}
define float @f1() {
entry:
  ret float -5.0e-01
}
define float @f2() {
entry:
  ret float 0.0
}
define float @f3() {
entry:
  ret float -0.0
}
define float @f4() {
entry:
  ret float 0x3FF4000000000000
}
define float @f5() {
entry:
  ret float 0x3FB99999A0000000
}
define float @f6() {
entry:
  ret float 0x8000000000000000
}
define float @f7() {
entry:
  ret float 16777216.0
}
define float @f8() {
entry:
  ret float undef
}
define float @f9() {
entry:
  ret float zeroinitializer
}
