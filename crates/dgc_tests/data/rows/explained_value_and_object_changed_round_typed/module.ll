%Node = type { i64, %Node* }
declare void @llvm.gcwrite(i8*, i8*, i8**)
define void @put(%Node* %value, %Node* %object) gc "shadow-stack" {
entry:
  %f = getelementptr %Node, %Node* %object, i32 0, i32 1
  %v = bitcast %Node* %value to i8*
  %o = bitcast %Node* %object to i8*
  %p = bitcast %Node** %f to i8**
  call void @llvm.gcwrite(i8* %o, i8* %v, i8** %p)
  ret void
}
