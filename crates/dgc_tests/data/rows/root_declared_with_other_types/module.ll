%Node = type { i64, %Node* }
declare void @llvm.gcroot(%Node**, i8*)
define void @f() gc "shadow-stack" {
entry:
  %s = alloca %Node*
  call void @llvm.gcroot(%Node** %s, i8* null)
  ret void
}
