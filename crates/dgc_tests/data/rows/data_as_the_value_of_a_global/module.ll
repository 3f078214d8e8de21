@d = private unnamed_addr constant [6 x i8] c"hello\00", align 1
@p = global ptr @d
define void @f() {
entry:
  ret void
}
