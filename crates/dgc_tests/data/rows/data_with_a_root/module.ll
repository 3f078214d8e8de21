%Node = type { i64 }
@d = private unnamed_addr constant [6 x i8] c"hello\00", align 1
declare void @llvm.gcroot(ptr, ptr)
define void @f() gc "shadow-stack" {
entry:
  %s = alloca ptr
  call void @llvm.gcroot(ptr %s, ptr @d)
  ret void
}
