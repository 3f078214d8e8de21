declare i64 @next()
define i64 @g() {
entry:
  %a = call i64 @next()
  ret i64 %a
}
define i64 @f() {
entry:
  %a = call i64 @g()
  %b = call i64 @next()
  %s = sub i64 %a, %b
  ret i64 %s
}
