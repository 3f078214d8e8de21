declare void @llvm.prefetch.p0i8(i8* nocapture readonly, i32 immarg, i32 immarg, i32)
define void @f() {
entry:
  call void @llvm.prefetch.p0i8(i8* null, i32 0, i32 3, i32 1)
  ret void
}
