define float @f(i32 %a) {
entry:
  %v = bitcast i32 %a to float
  ret float %v
}
define i64 @g() {
entry:
  %v = select i1 true, double 1.25e+00, double -5.0e-01
  %w = bitcast double %v to i64
  ret i64 %w
}
define i32 @h() {
entry:
  %v = select i1 false, float 1.25e+00, float -5.0e-01
  %w = bitcast float %v to i32
  ret i32 %w
}
