define i32 @f(i32 %a) {
entry:
  %v = call i32 @llvm.ctpop.i32(i32 %a)
  ret i32 %v
}
declare i32 @llvm.ctpop.i32(i32)
