%T = type { i64, %T* }
define void @f(%T* %t) gc "shadow-stack" {
entry:
  %p = getelementptr %T, %T* %t, double 0.0, i32 0
  ret void
}
