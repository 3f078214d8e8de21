declare i8 @next()
declare void @tick(i8)
define void @f() {
entry:
  %a = call i8 @next()
  call void @tick(i8 %a)
  %b = call i8 @next()
  %c = add i8 %a, %b
  ret void
}
