declare i64 @next()
define i64 @f() {
entry:
  call i64 @next()
  %1 = call i64 @next()
  ret i64 %1
}
