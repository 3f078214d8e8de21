declare void @llvm.var.annotation.p0i8.p0i8(i8*, i8*, i8*, i32, i8*)
define void @f() {
entry:
  call void @llvm.var.annotation.p0i8.p0i8(i8* null, i8* null, i8* null, i32 3, i8* null)
  ret void
}
