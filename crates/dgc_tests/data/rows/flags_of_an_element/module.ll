%Node = type { i64, [2 x %Node*] }
define i64 @f(%Node* %n, i64 %i) gc "shadow-stack" {
entry:
  %a = getelementptr inbounds nuw %Node, %Node* %n, i64 0, i32 0
  %b = getelementptr nusw nuw inbounds %Node, %Node* %n, i64 0, i32 1, i64 1
  %c = getelementptr nuw %Node, %Node* %n, i64 0, i32 0
  %v = load i64, i64* %a
  ret i64 %v
}
