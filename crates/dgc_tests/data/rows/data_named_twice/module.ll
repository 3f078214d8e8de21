@d = constant [1 x i8] c"a"
@d = constant [1 x i8] c"b"
define void @f() {
entry:
  ret void
}
