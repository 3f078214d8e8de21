@d = constant [1 x i8] c"a"
!5 = !{}
define void @f() {
entry:
  ret void
}
