declare i64 @next()
define i64 @f() {
entry:
  %v = call i64 @next()
  ret i64 %v
}
