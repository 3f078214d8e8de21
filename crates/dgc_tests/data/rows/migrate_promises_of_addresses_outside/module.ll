%Node = type { i64, %Node* }
define %Node* @f(%Node* %n, i8* %p) {
entry:
  br label %next
next:
  ret %Node* %n
}
define %Node* @g(%Node* %n) {
entry:
  ret %Node* %n
}
