@g = global i64 0
declare i64 @llvm.umin.i64(i64, i64)
define void @f(i64 %a) {
entry:
  %v = call i64 @llvm.umin.i64(i64 %a, i64 12)
  store i64 %v, i64* @g
  ret void
}
