define double @f() {
entry:
  %a = fadd double 1.25e+00, -5.0e-01
  %b = fneg float 0x3FF4000000000000
  %c = fpext float %b to double
  %d = fcmp uno double 0x7FF8000000000000, %a
  %e = sitofp i8 -3 to float
  %i = fptoui double 2.5 to i16
  %j = uitofp i16 %i to double
  ret double %j
}
