@a = constant [1 x i8] c"a" @d = constant [1 x i8] c"b"
declare void @take(ptr)
define void @f() gc "shadow-stack" {
entry:
  call void @take(ptr @d)
  ret void
}
