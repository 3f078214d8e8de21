declare i8* @llvm.invariant.start.p0i8(i64 immarg, i8* nocapture)
define void @f() {
entry:
  %i = call i8* @llvm.invariant.start.p0i8(i64 8, i8* null)
  ret void
}
