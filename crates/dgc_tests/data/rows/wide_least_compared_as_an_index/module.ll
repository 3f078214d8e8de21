%Row = type { [8 x i64] }
declare i64 @llvm.umin.i64(i64, i64)
define i64 @f(ptr %r, i64 %i) gc "shadow-stack" {
entry:
  %j = call i64 @llvm.umin.i64(i64 %i, i64 7)
  %c = icmp ult i64 %j, 8
  br i1 %c, label %in, label %out
in:
  %p = getelementptr %Row, ptr %r, i32 0, i32 0, i64 %j
  %v = load i64, ptr %p
  ret i64 %v
out:
  ret i64 0
}
