declare i32 @llvm.umin.i32(i32, i32)
define i32 @f(i32 %a) {
entry:
  %v = call i32 @llvm.umin.i32(i32 %a, i32 %w)
  %w = add i32 %a, 1
  ret i32 %v
}
