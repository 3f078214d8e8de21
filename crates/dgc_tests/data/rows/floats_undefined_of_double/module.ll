define double @f0() {
entry:
  ret double undef
}
define double @f1() {
entry:
  ret double zeroinitializer
}
