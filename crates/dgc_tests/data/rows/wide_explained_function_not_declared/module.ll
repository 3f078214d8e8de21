define i32 @f(i32 %a, i32 %b) {
entry:
  %v = call i32 @llvm.smax.i32(i32 %a, i32 %b)
  ret i32 %v
}
