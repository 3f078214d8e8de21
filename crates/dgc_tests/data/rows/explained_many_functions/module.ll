define i64 @f0(i64 %k) {
entry:
  br label %next
next:
  ret i64 0
}
define i64 @f1(i64 %k) {
entry:
  br label %next
next:
  ret i64 0
}
define i64 @f2(i64 %k) {
entry:
  br label %next
next:
  ret i64 0
}
define i64 @f3(i64 %k) {
entry:
  br label %next
next:
  ret i64 %k
}
define i64 @f4(i64 %k) {
entry:
  br label %next
next:
  ret i64 0
}
