define double @f0() {
entry:
  ret double 1.0e+23
}
define double @f1() {
entry:
  ret double 9007199254740993.0
}
define double @f2() {
entry:
  ret double 9007199254740993.00000000000000000001
}
define double @f3() {
entry:
  ret double 0.1000000000000000055511151231257827
}
define double @f4() {
entry:
  ret double 123456789012345678901234567890.0
}
define double @f5() {
entry:
  ret double 1.7976931348623157e+308
}
define double @f6() {
entry:
  ret double 4.9e-324
}
define double @f7() {
entry:
  ret double 2.0e-324
}
define double @f8() {
entry:
  ret double 2.2250738585072011e-308
}
define double @f9() {
entry:
  ret double 3.141592653589793
}
