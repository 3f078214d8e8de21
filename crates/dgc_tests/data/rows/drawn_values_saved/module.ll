declare i64 @next()
%Node = type { i64, %Node* }
define i64 @f() gc "shadow-stack" {
entry:
  %a = call i64 @next()
  %odd = trunc i64 %a to i1
  br i1 %odd, label %bad, label %good
bad:
  %p = getelementptr %Node, %Node* null, i32 0, i32 0
  %v = load i64, i64* %p
  ret i64 %v
good:
  ret i64 %a
}
