declare i64 @next()
define i64 @f() {
entry:
  %a = call i64 @next()
  ret i64 %a
}
