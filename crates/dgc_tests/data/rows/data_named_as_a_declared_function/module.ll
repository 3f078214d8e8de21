@d = constant [1 x i8] c"a"
declare void @d()
define void @f() {
entry:
  ret void
}
