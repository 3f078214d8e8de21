%Row = type { [8 x i64] }
declare i64 @next()
define i64 @f(%Row* %n) gc "shadow-stack" {
entry:
  %i = call i64 @next()
  %p = getelementptr %Row, %Row* %n, i32 0, i32 0, i64 %i
  %v = load i64, i64* %p
  ret i64 %v
}
