@d = constant [8 x i8] c"]}) \22=@x"
declare void @take(ptr)
define void @f() gc "shadow-stack" {
entry:
  call void @take(ptr @d)
  ret void
}
