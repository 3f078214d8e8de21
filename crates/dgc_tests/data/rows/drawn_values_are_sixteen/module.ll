declare i64 @next()
%Node = type { i64, %Node* }
define i64 @f() gc "shadow-stack" {
entry:
  %v0 = call i64 @next()
  %v1 = call i64 @next()
  %v2 = call i64 @next()
  %v3 = call i64 @next()
  %v4 = call i64 @next()
  %v5 = call i64 @next()
  %v6 = call i64 @next()
  %v7 = call i64 @next()
  %v8 = call i64 @next()
  %v9 = call i64 @next()
  %v10 = call i64 @next()
  %v11 = call i64 @next()
  %v12 = call i64 @next()
  %v13 = call i64 @next()
  %v14 = call i64 @next()
  %v15 = call i64 @next()
  %v16 = call i64 @next()
  %none = icmp eq i64 %v15, 0
  %some = icmp ne i64 %v16, 0
  %c = or i1 %none, %some
  br i1 %c, label %bad, label %good
bad:
  %p = getelementptr %Node, %Node* null, i32 0, i32 0
  %v = load i64, i64* %p
  ret i64 %v
good:
  ret i64 %v16
}
