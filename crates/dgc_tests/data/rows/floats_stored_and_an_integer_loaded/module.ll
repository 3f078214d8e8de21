%T = type { double, ptr }
@g = global float 0.0
define i64 @f(ptr %t) gc "shadow-stack" {
entry:
  store double 1.25e+00, ptr %t
  %v = load i64, ptr %t
  store float 5.0e-01, ptr @g
  %w = load i32, ptr @g
  store i64 7, ptr %t
  %x = load double, ptr %t
  ret i64 %v
}
