%N = type { i64 }
declare i8* @dg_alloc(i32)
declare void @free(i8*)
define void @f() gc "shadow-stack" {
entry:
  %p = call i8* @dg_alloc(i32 0)
  call void @free(i8* %p)
  ret void
}
