declare void @a()
declare void @b()
declare void @c()
define void @f() {
entry:
  call void @c()
  call void @a()
  call void @c()
  ret void
}
