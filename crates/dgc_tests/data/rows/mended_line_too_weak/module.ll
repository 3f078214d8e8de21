%Node = type { i64, ptr }
declare void @llvm.gcroot(ptr, ptr)
define i64 @value(ptr %n) gc "shadow-stack" {
entry:
  %s = alloca ptr
  call void @llvm.gcroot(ptr %s, ptr null)
  store ptr %n, ptr %s
  br label %next
next:
  %x = load ptr, ptr %s
  %p = getelementptr %Node, ptr %x, i32 0, i32 0
  %v = load i64, ptr %p
  ret i64 %v
}
