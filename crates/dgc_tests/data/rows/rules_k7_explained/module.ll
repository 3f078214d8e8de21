%Node = type { i64, ptr }
declare ptr @llvm.gcread(ptr, ptr)
define ptr @next(ptr %n, ptr %other) gc "shadow-stack" {
entry:
  %f = getelementptr %Node, ptr %n, i32 0, i32 1
  %r = call ptr @llvm.gcread(ptr %other, ptr %f)
  ret ptr %r
}
