define i32 @f(i32 %a) {
entry:
  %v = fneg i32 %a
  ret i32 %v
}
