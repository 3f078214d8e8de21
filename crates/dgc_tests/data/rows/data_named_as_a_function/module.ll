@f = constant [1 x i8] c"a"
define void @f() {
entry:
  ret void
}
