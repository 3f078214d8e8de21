@d = private unnamed_addr constant [6 x i8] c"hello\00", align 1
declare i64 @llvm.smax.i64(i64, i64)
define void @f() gc "shadow-stack" {
entry:
  %v = call i64 @llvm.smax.i64(ptr @d, i64 1)
  ret void
}
