%Node = type { i64, %Node* }
declare void @llvm.gcwrite(i8*, i8*, i8**)
define void @cut(%Node* %n) gc "shadow-stack" {
entry:
  %f = getelementptr %Node, %Node* %n, i32 0, i32 1
  %p = bitcast %Node** %f to i8**
  call void @llvm.gcwrite(i8* null, i8* null, i8** %p)
  ret void
}
