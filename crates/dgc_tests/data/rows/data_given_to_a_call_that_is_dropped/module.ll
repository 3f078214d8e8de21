@d = private unnamed_addr constant [6 x i8] c"hello\00", align 1
declare void @take(ptr)
declare void @llvm.lifetime.start.p0(i64, ptr)
define void @f() gc "shadow-stack" {
entry:
  call void @take(ptr @d)
  call void @llvm.lifetime.start.p0(i64 6, ptr @d)
  ret void
}
