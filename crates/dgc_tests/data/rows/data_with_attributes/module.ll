@d = global [1 x i8] c"a", align 1 #0
attributes #0 = { "a" }
declare void @take(ptr)
define void @f() gc "shadow-stack" {
entry:
  call void @take(ptr @d)
  ret void
}
