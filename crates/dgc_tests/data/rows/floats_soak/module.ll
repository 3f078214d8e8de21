define double @f(double %a) {
entry:
  %v = fmul double %a, %a
  %c = fcmp olt double %v, 1.0
  br i1 %c, label %yes, label %no
yes:
  ret double 1.25e+00
no:
  ret double %v
}
