%Node = type { i64, %Node* }
define void @new() gc "shadow-stack" {
entry:
  %a = call i8* @dg_alloc(i32 0)
  ret void
}
