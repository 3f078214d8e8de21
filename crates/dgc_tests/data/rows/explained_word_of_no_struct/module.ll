%Node = type { i64, %Node* }
%Box = type { i64, i64* }
define void @idle() {
entry:
  ret void
}
