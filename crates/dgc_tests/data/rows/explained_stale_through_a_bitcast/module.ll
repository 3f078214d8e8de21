%Node = type { i64, %Node* }
declare void @dg_safepoint()
define i64 @first(%Node* %n) gc "shadow-stack" {
entry:
  %v = bitcast %Node* %n to i8*
  call void @dg_safepoint()
  %m = bitcast i8* %v to %Node*
  %p = getelementptr %Node, %Node* %m, i32 0, i32 0
  %r = load i64, i64* %p
  ret i64 %r
}
