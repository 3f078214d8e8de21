%Node = type { i64 }
@d = private unnamed_addr constant [6 x i8] c"hello\00", align 1
define ptr @f() gc "shadow-stack" {
entry:
  ret ptr @d
}
