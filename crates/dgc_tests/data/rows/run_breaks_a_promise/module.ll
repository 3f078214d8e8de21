%Node = type { i64, %Node* }
@g = global %Node* null
declare i8* @dg_alloc(i32)
declare void @dg_safepoint()
declare void @llvm.gcroot(i8**, i8*)
declare i8* @llvm.gcread(i8*, i8**)
declare void @llvm.gcwrite(i8*, i8*, i8**)
define i64 @few(i64 %i) {
entry:
  ret i64 %i
}
define void @taker(%Node* %n) gc "shadow-stack" {
entry:
  ret void
}
