%Node = type { i64, %Node* }
declare void @llvm.gcwrite(i8*, i8*, i8**)
define void @link(%Node* %a, %Node* %b) gc "shadow-stack" {
entry:
  %f = getelementptr %Node, %Node* %a, i32 0, i32 1
  %v = bitcast %Node* %b to i8*
  %p = bitcast %Node** %f to i8**
  call void @llvm.gcwrite(i8* %v, i8* null, i8** %p)
  ret void
}
