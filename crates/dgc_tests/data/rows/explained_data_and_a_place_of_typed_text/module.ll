%Node = type { i64 }
@d = private constant [6 x i8] c"hello\00"
declare i32 @printf(i8*, ...)
define i64 @f(%Node* %n) gc "shadow-stack" {
entry:
  %r = call i32 (i8*, ...) @printf(i8* getelementptr inbounds ([6 x i8], [6 x i8]* @d, i64 0, i64 0), i8* bitcast ([6 x i8]* @d to i8*))
  %p = getelementptr %Node, %Node* %n, i32 0, i32 0
  %v = load i64, i64* %p
  ret i64 %v
}
