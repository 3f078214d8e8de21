$d = comdat any
@d = linkonce_odr constant [1 x i8] c"a", comdat($d)
declare void @take(ptr)
define void @f() gc "shadow-stack" {
entry:
  call void @take(ptr @d)
  ret void
}
