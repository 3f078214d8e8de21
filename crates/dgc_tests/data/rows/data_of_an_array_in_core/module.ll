@d = constant [2 x i8] c"ab"
define void @f() {
entry:
  ret void
}
