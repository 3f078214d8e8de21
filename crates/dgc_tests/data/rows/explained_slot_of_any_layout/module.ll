%Node = type { i64, %Node* }
declare void @llvm.gcroot(i8**, i8*)
define void @keep(%Node* %n) gc "shadow-stack" {
entry:
  %s = alloca i8*
  call void @llvm.gcroot(i8** %s, i8* null)
  ret void
}
