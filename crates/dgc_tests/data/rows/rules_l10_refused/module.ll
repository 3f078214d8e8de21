%Node = type { i64, %Node* }
declare ptr @dg_alloc(i32)
define void @idle() {
entry:
  ret void
}
