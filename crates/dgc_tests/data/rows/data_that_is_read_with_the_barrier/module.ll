@d = private unnamed_addr constant [6 x i8] c"hello\00", align 1
declare ptr @llvm.gcread(ptr, ptr)
define void @f() gc "shadow-stack" {
entry:
  %v = call ptr @llvm.gcread(ptr null, ptr getelementptr (i8, ptr @d, i64 1))
  ret void
}
