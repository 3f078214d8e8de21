define i64 @f(i64 %n) {
entry:
  br label %finish
finish:
  ret i64 %n
}
