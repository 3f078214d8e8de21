@d = private unnamed_addr constant [6 x i8] c"hello\00", align 1
declare void @llvm.gcwrite(ptr, ptr, ptr)
define void @f() gc "shadow-stack" {
entry:
  call void @llvm.gcwrite(ptr null, ptr null, ptr @d)
  ret void
}
