define double @f0() {
entry:
  ret double 1.25e+00
}
define double @f1() {
entry:
  ret double -5.0e-01
}
define double @f2() {
entry:
  ret double 0.1
}
define double @f3() {
entry:
  ret double -0.0
}
define double @f4() {
entry:
  ret double 0.0
}
define double @f5() {
entry:
  ret double 1.
}
define double @f6() {
entry:
  ret double 12.5
}
define double @f7() {
entry:
  ret double 1.0e5
}
define double @f8() {
entry:
  ret double 1.0E5
}
define double @f9() {
entry:
  ret double 1.0E+05
}
define double @f10() {
entry:
  ret double 3.0e-2
}
define double @f11() {
entry:
  ret double 007.50
}
