%Node = type { i64, %Node* }
declare i8* @dg_alloc(i32)
declare i64 @next()
define void @f(%Node* %n) gc "shadow-stack" {
entry:
  %a = call i8* @dg_alloc(i32 0)
  %x = bitcast i8* %a to %Node*
  %c = icmp eq %Node* %x, null
  br i1 %c, label %no, label %ok
no:
  ret void
ok:
  %v = call i64 @next()
  %p = getelementptr %Node, %Node* %x, i32 0, i32 1
  store %Node* %n, %Node** %p
  ret void
}
