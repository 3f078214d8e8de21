define i32 @f(i32 %a, i32 %b) {
entry:
  %v = call i32 @llvm.fshl.i32(i32 %a, i32 %b, i32 5)
  ret i32 %v
}
declare i32 @llvm.fshl.i32(i32, i32, i32)
