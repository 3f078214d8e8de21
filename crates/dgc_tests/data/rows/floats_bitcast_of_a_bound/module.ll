%T = type { [4 x i64], %T* }
define i64 @f(%T* %t, i64 %n) gc "shadow-stack" {
entry:
  %i = and i64 %n, 3
  %d = bitcast i64 %i to double
  %v = fadd double %d, 0.0
  %j = bitcast double %v to i64
  %p = getelementptr %T, %T* %t, i64 0, i32 0, i64 %j
  %w = load i64, i64* %p
  ret i64 %w
}
