define double @f(double %a, double %b) {
entry:
  %c = fcmp olt double %a, %b
  br i1 %c, label %yes, label %no
yes:
  ret double %a
no:
  ret double %b
}
