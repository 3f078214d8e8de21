declare noundef i32 @llvm.ctpop.i32(i32 noundef) #1
define i32 @f(i32 %a) {
entry:
  call i32 @llvm.ctpop.i32(i32 %a)
  %1 = tail call noundef i32 @llvm.ctpop.i32(i32 noundef %0) #2
  ret i32 %1
}
attributes #1 = { nounwind }
