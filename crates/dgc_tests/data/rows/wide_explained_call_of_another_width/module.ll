declare i32 @llvm.umin.i32(i32, i32)
define i64 @f(i64 %a, i64 %b) {
entry:
  %v = call i64 @llvm.umin.i32(i64 %a, i64 %b)
  ret i64 %v
}
