%Node = type { i64, %Node* }
@g = global %Node* null
declare i8* @dg_alloc(i32)
declare void @dg_safepoint()
declare void @llvm.gcroot(i8**, i8*)
declare i8* @llvm.gcread(i8*, i8**)
declare void @llvm.gcwrite(i8*, i8*, i8**)
define i8 @right(i8 %n) {
entry:
  ret i8 %n
}
define void @put() gc "shadow-stack" {
entry:
  store %Node* null, %Node** @g
  ret void
}
