@d = constant <{ i8, i32 }> <{ i8 1, i32 2 }>
declare void @take(ptr)
define void @f() gc "shadow-stack" {
entry:
  call void @take(ptr @d)
  ret void
}
