declare i8 @llvm.smax.i08(i8, i8)
define void @f() {
entry:
  %v = call i8 @llvm.smax.i08(i8 1, i8 1)
  ret void
}
