%Node = type { i64, %Node* }
@g = global %Node* null
declare i8* @dg_alloc(i32)
declare void @dg_safepoint()
declare void @llvm.gcroot(i8**, i8*)
declare i8* @llvm.gcread(i8*, i8**)
declare void @llvm.gcwrite(i8*, i8*, i8**)
define %Node* @f(%Node* %n, i64 %i, %Node* %m, i8* %b) gc "shadow-stack" {
entry:
  ret %Node* %n
}
define %Node* @g2(%Node* %n) gc "shadow-stack" {
entry:
  ret %Node* %n
}
