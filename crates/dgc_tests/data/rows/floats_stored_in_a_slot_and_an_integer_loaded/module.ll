define i64 @f(double %a) gc "shadow-stack" {
entry:
  %s = alloca double
  store double %a, ptr %s
  %v = load i64, ptr %s
  ret i64 %v
}
