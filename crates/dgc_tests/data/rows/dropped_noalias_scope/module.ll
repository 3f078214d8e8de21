declare void @llvm.experimental.noalias.scope.decl(metadata)
define void @f() {
entry:
  call void @llvm.experimental.noalias.scope.decl(metadata !3)
  ret void
}
