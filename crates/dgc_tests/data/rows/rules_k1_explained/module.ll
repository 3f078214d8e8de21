define i64 @later(i64 %k) {
entry:
  br label %next
next:
  ret i64 %k
}
