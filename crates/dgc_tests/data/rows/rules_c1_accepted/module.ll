%Node = type { i64, %Node* }
declare i8* @dg_alloc(i32)
define void @new() gc "shadow-stack" {
entry:
  %a = call i8* @dg_alloc(i32 0)
  br label %next
next:
  ret void
}
