%A = type { i64, ptr }
%B = type { i64 }
@g = global ptr null
declare void @llvm.gcwrite(ptr, ptr, ptr)
define void @give(ptr %b) gc "shadow-stack" {
entry:
  call void @llvm.gcwrite(ptr %b, ptr null, ptr @g)
  ret void
}
