declare void @llvm.lifetime.start.p0i8(i64 immarg, i8* nocapture)
declare void @llvm.lifetime.end.p0i8(i64 immarg, i8* nocapture)
define void @f() {
entry:
  %s = alloca i64
  call void @llvm.lifetime.start.p0i8(i64 8, i8* nonnull null)
  store i64 1, i64* %s
  call void @llvm.lifetime.end.p0i8(i64 8, i8* nonnull null)
  ret void
}
