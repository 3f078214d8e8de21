%Node = type { i64, i8* }
declare i8* @dg_alloc(i32)
define void @f() gc "shadow-stack" {
entry:
  %a = call i8* @dg_alloc(i32 0)
  %n = bitcast i8* %a to %Node*
  %c = icmp eq %Node* %n, null
  br i1 %c, label %no, label %ok
no:
  ret void
ok:
  %p = getelementptr %Node, %Node* %n, i32 0, i32 1
  store i8* %a, i8** %p
  ret void
}
