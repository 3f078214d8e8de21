@d = internal global [3 x i32] [i32 1, i32 -2, i32 3], align 4
declare void @take(ptr)
define void @f() gc "shadow-stack" {
entry:
  call void @take(ptr @d)
  ret void
}
