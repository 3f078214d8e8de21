define i8 @f0(double %a) {
entry:
  %v = fptosi double %a to i8
  ret i8 %v
}
define i64 @f1(float %a) {
entry:
  %v = fptoui float %a to i64
  ret i64 %v
}
define float @f2(double %a) {
entry:
  %v = fptrunc double %a to float
  ret float %v
}
define double @f3(float %a) {
entry:
  %v = fpext float %a to double
  ret double %v
}
define float @f4(i64 %a) {
entry:
  %v = sitofp i64 %a to float
  ret float %v
}
define double @f5(i1 %a) {
entry:
  %v = uitofp nneg i1 %a to double
  ret double %v
}
