@g = global float 0.0
@h = global double 0.0
define i32 @f() gc "shadow-stack" {
entry:
  store float 5.0e-01, ptr @g
  %v = load i32, ptr @g
  ret i32 %v
}
define double @k() gc "shadow-stack" {
entry:
  store i64 7, ptr @h
  %v = load double, ptr @h
  ret double %v
}
