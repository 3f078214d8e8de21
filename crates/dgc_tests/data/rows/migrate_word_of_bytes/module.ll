%Node = type { i64, i8* }
@g = global %Node* null
declare void @llvm.gcroot(i8**, i8*)
define void @f() gc "shadow-stack" {
entry:
  %s = alloca i8*
  %r = bitcast i8** %s to i8**
  call void @llvm.gcroot(i8** %r, i8* null)
  ret void
}
