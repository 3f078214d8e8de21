declare i1 @next()
define i1 @f() {
entry:
  %a = call i1 @next()
  %b = call i1 @next()
  %c = xor i1 %a, %b
  ret i1 %c
}
