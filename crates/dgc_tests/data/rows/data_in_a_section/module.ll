@d = constant [1 x i8] c"a", section "x", comdat, align 8
declare void @take(ptr)
define void @f() gc "shadow-stack" {
entry:
  call void @take(ptr @d)
  ret void
}
