@x = extern_weak global i64
declare void @take(ptr)
define void @f() gc "shadow-stack" {
entry:
  call void @take(ptr @x)
  ret void
}
