%Node = type { i64, ptr }
declare void @llvm.gcroot(ptr, ptr)
define i64 @value(ptr %n) gc "shadow-stack" {
entry:
  %s = alloca ptr
  call void @llvm.gcroot(ptr %s, ptr null)
  store ptr %n, ptr %s
  br label %one
one:
  %x = load ptr, ptr %s
  br label %two
two:
  %p = getelementptr %Node, ptr %x, i32 0, i32 0
  %v = load i64, ptr %p
  ret i64 %v
}
