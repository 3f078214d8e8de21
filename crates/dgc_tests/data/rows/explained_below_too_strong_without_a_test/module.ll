define void @to(i64 %n) {
entry:
  br label %next
next:
  ret void
}
