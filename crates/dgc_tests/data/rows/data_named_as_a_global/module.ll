@d = global i64 1
@d = constant [1 x i8] c"b"
define void @f() {
entry:
  ret void
}
