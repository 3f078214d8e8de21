@d = global [1 x i8] c"a", align 1, !dbg !5
declare void @take(ptr)
define void @f() gc "shadow-stack" {
entry:
  call void @take(ptr @d)
  ret void
}
