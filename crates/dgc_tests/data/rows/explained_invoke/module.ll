define i64 @f(i64 %n) {
entry:
  invoke void @g() to label %a unwind label %b
  ret i64 %v
}
