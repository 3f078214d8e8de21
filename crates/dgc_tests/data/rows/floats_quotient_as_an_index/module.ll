%T = type { [4 x i64], %T* }
define i64 @f(%T* %t, double %a) gc "shadow-stack" {
entry:
  %i = fptoui double %a to i64
  %p = getelementptr %T, %T* %t, i64 0, i32 0, i64 %i
  %w = load i64, i64* %p
  ret i64 %w
}
