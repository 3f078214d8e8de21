%Node = type { i64, %Node* }
@g = global %Node* null
declare i8* @dg_alloc(i32)
declare void @dg_safepoint()
declare void @llvm.gcroot(i8**, i8*)
declare i8* @llvm.gcread(i8*, i8**)
declare void @llvm.gcwrite(i8*, i8*, i8**)
define void @eleven(%Node* %n) gc "shadow-stack" {
entry:
  %p = getelementptr %Node, %Node* %n, i32 0, i32 0
  br label %next
next:
  ret void
}
