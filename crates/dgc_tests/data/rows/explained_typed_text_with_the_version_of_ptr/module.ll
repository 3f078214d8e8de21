%Node = type { i64, %Node* }
