declare void @"a b"()
define void @f() {
entry:
  call void @"a b"()
  ret void
}
