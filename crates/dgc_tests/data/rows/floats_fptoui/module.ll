define i8 @f(float %a) {
entry:
  %v = fptoui float %a to i8
  ret i8 %v
}
define i64 @g(double %a) {
entry:
  %v = fptoui double %a to i64
  ret i64 %v
}
