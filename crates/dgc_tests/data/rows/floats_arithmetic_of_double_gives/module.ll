define double @f(double %a, double %b) {
entry:
  %r = fadd double %a, %b
  %s = fsub double %r, %b
  %t = fmul double %s, 2.0
  %u = fdiv double %t, 0.0
  %w = frem double %u, %a
  ret double %w
}
