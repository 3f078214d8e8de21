@d = private unnamed_addr constant [6 x i8] c"hello\00", align 1
define void @f() gc "shadow-stack" {
entry:
  call void @llvm.memset.p0.i64(ptr @d, i8 0, i64 6, i1 false)
  ret void
}
