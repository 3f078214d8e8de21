@d = private unnamed_addr constant [6 x i8] c"hello\00", align 1
define void @f() gc "shadow-stack" {
entry:
  %p = bitcast ptr @d to ptr
  ret void
}
