define void @f(double %a) {
entry:
  %c0 = fcmp false double %a, %a
  %c1 = fcmp oeq double %a, %a
  %c2 = fcmp ogt double %a, %a
  %c3 = fcmp oge double %a, %a
  %c4 = fcmp olt double %a, %a
  %c5 = fcmp ole double %a, %a
  %c6 = fcmp one double %a, %a
  %c7 = fcmp ord double %a, %a
  %c8 = fcmp ueq double %a, %a
  %c9 = fcmp ugt double %a, %a
  %c10 = fcmp uge double %a, %a
  %c11 = fcmp ult double %a, %a
  %c12 = fcmp ule double %a, %a
  %c13 = fcmp une double %a, %a
  %c14 = fcmp uno double %a, %a
  %c15 = fcmp true double %a, %a
  ret void
}
