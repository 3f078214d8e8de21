define double @f(i1 %c, double %a) {
entry:
  %v = select i1 %c, double %a, double 0x4000000000000000
  %w = select i1 true, float 1.5, float undef
  ret double %v
}
