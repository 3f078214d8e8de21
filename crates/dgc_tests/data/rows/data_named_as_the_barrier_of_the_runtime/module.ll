@dg_write = constant [1 x i8] c"a"
declare void @take(ptr)
define void @f() gc "shadow-stack" {
entry:
  call void @take(ptr @dg_write)
  ret void
}
