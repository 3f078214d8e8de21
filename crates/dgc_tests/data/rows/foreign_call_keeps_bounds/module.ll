%Row = type { [8 x i64] }
declare i64 @next()
define i64 @f(%Row* %n, i64 %k) gc "shadow-stack" {
entry:
  %i = and i64 %k, 7
  %r = call i64 @next()
  %p = getelementptr %Row, %Row* %n, i32 0, i32 0, i64 %i
  %v = load i64, i64* %p
  ret i64 %v
}
