declare void @llvm.gcwrite(i8*, i8*, i8**)
%Node = type { i64, %Node* }
define void @link(%Node* %a, %Node* %b) gc "shadow-stack" {
entry:
  %f = getelementptr %Node, %Node* %a, i32 0, i32 1
  %ref.b = bitcast %Node* %b to i8*
  %ref.a = bitcast %Node* %a to i8*
  %place.f = bitcast %Node** %f to i8**
  call void @llvm.gcwrite(i8* %ref.b, i8* %ref.a, i8** %place.f)
  ret void
}
