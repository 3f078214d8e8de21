%Node = type { i64, %Node* }
declare i8* @dg_alloc(i32)
define i64 @first(i64 %k) gc "shadow-stack" {
entry:
  %a = call i8* @dg_alloc(i32 255)
  %n = bitcast i8* %k to %Node*
  %c = icmp eq %Node* %n, null
  br i1 %c, label %no, label %ok
no:
  ret i64 0
ok:
  %p = getelementptr %Node, %Node* %n, i32 0, i32 0
  ret i64 %k
}
