%Node = type { i64 }
declare i8 @next()
define i64 @f() {
entry:
  %a = call i8 @next()
  %b = call i8 @next()
  %x = zext i8 %a to i64
  %y = zext i8 %b to i64
  %s = add i64 %x, %y
  ret i64 %s
}
