define float @f(i32 %a) {
entry:
  %v = uitofp i32 %a to float
  ret float %v
}
define double @g(i1 %a) {
entry:
  %v = uitofp i1 %a to double
  ret double %v
}
