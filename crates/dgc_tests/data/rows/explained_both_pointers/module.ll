%Node = type { i64, %Node* }
declare ptr @dg_alloc(i32)
