declare i32 @llvm.smax.i32(i32, i32)
define i64 @f(i32 %a, i32 %b) {
entry:
  %v = call i64 @llvm.smax.i32(i32 %a, i32 %b)
  ret i64 %v
}
