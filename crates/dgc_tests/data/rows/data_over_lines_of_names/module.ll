@d = constant { ptr, ptr } {
  ptr
@f,
  ptr
@take }
declare void @take(ptr)
define void @f() gc "shadow-stack" {
entry:
  call void @take(ptr @d)
  ret void
}
