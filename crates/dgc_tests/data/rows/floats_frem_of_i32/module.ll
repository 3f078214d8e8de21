define i32 @f(i32 %a) {
entry:
  %v = frem i32 %a, %a
  ret i32 %v
}
