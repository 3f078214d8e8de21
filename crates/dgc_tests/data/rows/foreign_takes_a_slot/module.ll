declare void @take(i64*)
define void @f() {
entry:
  %s = alloca i64
  call void @take(i64* %s)
  ret void
}
