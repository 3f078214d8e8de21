define double @f() {
entry:
  ret double fadd (double 1.0, double 2.0)
}
