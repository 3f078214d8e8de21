define float @f(i32 %a) {
entry:
  %v = sitofp i32 %a to float
  ret float %v
}
define double @g(i1 %a) {
entry:
  %v = sitofp i1 %a to double
  ret double %v
}
