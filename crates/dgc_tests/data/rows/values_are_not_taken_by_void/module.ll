declare void @tick()
declare i64 @next()
define i64 @f() {
entry:
  call void @tick()
  %a = call i64 @next()
  ret i64 %a
}
