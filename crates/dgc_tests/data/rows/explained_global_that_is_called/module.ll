@count = global i64 0
define void @f() {
entry:
  call void @count()
  ret void
}
