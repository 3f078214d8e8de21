%T = type { [4 x i64], %T* }
define void @f(%T* %t, float %i) gc "shadow-stack" {
entry:
  %p = getelementptr %T, %T* %t, i64 0, i32 0, float %i
  ret void
}
