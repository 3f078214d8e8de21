%T = type { i64, %T* }
declare i8* @dg_alloc(i32)
define void @f() gc "shadow-stack" {
entry:
  %p = call i8* @dg_alloc(float 0.0)
  ret void
}
