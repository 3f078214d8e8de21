declare void @llvm.lifetime.start.p0(i64, ptr)
declare void @llvm.lifetime.end.p0(i64, ptr)
define void @f() {
entry:
  %s = alloca i64
  call void @llvm.lifetime.start.p0(i64 8, ptr nonnull %s)
  store i64 1, ptr %s
  call void @llvm.lifetime.end.p0(i64 8, ptr nonnull %s)
  ret void
}
