define double @f(double %a) {
entry:
  %v = bitcast double %a to double
  %w = bitcast double 1.0 to double
  %x = fadd double %v, %w
  ret double %x
}
