define i64 @f(ptr %n) {
  %v = ptrtoaddr ptr %n to i64
  ret i64 %v
}
