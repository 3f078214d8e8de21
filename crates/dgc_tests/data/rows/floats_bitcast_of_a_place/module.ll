%T = type { double, %T* }
define i64 @f(%T* %t) gc "shadow-stack" {
entry:
  %p = getelementptr %T, %T* %t, i32 0, i32 0
  %q = bitcast double* %p to i64*
  %v = load i64, i64* %q
  ret i64 %v
}
