declare void @b()
declare void @a()
define void @f() {
entry:
  call void @a()
  call void @b()
  ret void
}
