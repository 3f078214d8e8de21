declare double @sin(double)
declare void @put(float)
define double @f(double %a) {
entry:
  call void @put(float 1.0)
  %v = call double @sin(double %a)
  %w = call double @sin(double %v)
  ret double %w
}
