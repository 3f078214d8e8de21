@g = global double 0.0
define i32 @f() gc "shadow-stack" {
entry:
  store double 1.25e+00, ptr @g
  %v = load i32, ptr @g
  ret i32 %v
}
