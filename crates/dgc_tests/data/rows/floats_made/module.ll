define double @f(double %a, double %b) {
entry:
  %c = fcmp olt double %a, %b
  br i1 %c, label %yes, label %no
yes:
  ret double %a
no:
  ret double %b
}
define float @g(i1 %c, float %a) {
entry:
  br i1 %c, label %yes, label %join
yes:
  %s = fadd float %a, 1.0
  br label %join
join:
  %v = phi float [ %s, %yes ], [ 5.0, %entry ]
  ret float %v
}
define double @h(double %a) {
entry:
  %s = alloca double
  store double %a, double* %s
  br label %next
next:
  %v = load double, double* %s
  ret double %v
}
