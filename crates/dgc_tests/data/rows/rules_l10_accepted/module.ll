%Node = type { i64, %Node* }
declare i8* @dg_alloc(i32)
define void @idle() {
entry:
  ret void
}
