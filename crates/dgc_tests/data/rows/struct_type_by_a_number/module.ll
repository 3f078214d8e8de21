%Node = type { i64, %Node* }
%5 = type { i64 }
define void @f() {
entry:
  ret void
}
