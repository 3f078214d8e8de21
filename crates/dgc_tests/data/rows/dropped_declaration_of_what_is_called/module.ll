declare void @llvm.memset.p0i8.i64(i8*, i8, i64, i1)
define void @f() {
entry:
  call void @llvm.memset.p0i8.i64(i8* null, i8 0, i64 8, i1 false)
  ret void
}
