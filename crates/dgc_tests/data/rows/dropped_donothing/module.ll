declare void @llvm.donothing()
define void @f() {
entry:
  call void @llvm.donothing()
  ret void
}
