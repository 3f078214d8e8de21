%Node = type { i64, %Node* }
declare i8* @llvm.gcread(i8**, i8**)
define void @f(%Node* %n) gc "shadow-stack" {
entry:
  %p = getelementptr %Node, %Node* %n, i32 0, i32 1
  %a = bitcast %Node** %p to i8**
  %q = call i8* @llvm.gcread(i8** %a, i8** %a)
  ret void
}
