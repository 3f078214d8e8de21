@g = global i64 0
declare void @take(i64*)
define void @f() {
entry:
  call void @take(i64* @g)
  ret void
}
