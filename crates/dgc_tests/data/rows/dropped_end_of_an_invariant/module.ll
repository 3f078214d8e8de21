declare void @llvm.invariant.end.p0i8({}*, i64 immarg, i8* nocapture)
define void @f() {
entry:
  call void @llvm.invariant.end.p0i8({}* null, i64 8, i8* null)
  ret void
}
