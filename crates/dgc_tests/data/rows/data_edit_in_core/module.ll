declare void @take(ptr)
@g = global i64 0
define void @f() {
entry:
  ret void
}
