define double @f0() {
entry:
  ret double 0x3FF4000000000000
}
define double @f1() {
entry:
  ret double 0xBFE0000000000000
}
define double @f2() {
entry:
  ret double 0x0
}
define double @f3() {
entry:
  ret double 0x1
}
define double @f4() {
entry:
  ret double 0x7FF0000000000000
}
define double @f5() {
entry:
  ret double 0xFFF8000000000000
}
define double @f6() {
entry:
  ret double 0x7FF0000000000001
}
define double @f7() {
entry:
  ret double 0x3ff4000000000000
}
define double @f8() {
entry:
  ret double 0x00000000000000000003FF4000000000000
}
