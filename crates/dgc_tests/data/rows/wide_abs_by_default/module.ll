declare i32 @llvm.abs.i32(i32, i1)
define i32 @f(i32 %a) {
entry:
  %v = call i32 @llvm.abs.i32(i32 %a, i1 false)
  ret i32 %v
}
