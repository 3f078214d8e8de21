%Node = type { i64, %Node* }
@g = global %Node* null
declare i8* @dg_alloc(i32)
declare void @dg_safepoint()
declare void @llvm.gcroot(i8**, i8*)
declare i8* @llvm.gcread(i8*, i8**)
declare void @llvm.gcwrite(i8*, i8*, i8**)
define void @chain() gc "shadow-stack" {
entry:
  %a = call i8* @dg_alloc(i32 0)
  %b = call i8* @dg_alloc(i32 0)
  %x = bitcast i8* %a to %Node*
  %y = bitcast i8* %b to %Node*
  %f = getelementptr %Node, %Node* %y, i32 0, i32 1
  store %Node* %x, %Node** %f
  call void @llvm.gcwrite(i8* %b, i8* null, i8** bitcast (%Node** @g to i8**))
  br label %loop
loop:
  call void @dg_safepoint()
  br label %loop
}
