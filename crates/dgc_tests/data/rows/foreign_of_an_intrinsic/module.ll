declare i32 @llvm.smax.i32(i32, i32)
define void @f() {
entry:
  ret void
}
