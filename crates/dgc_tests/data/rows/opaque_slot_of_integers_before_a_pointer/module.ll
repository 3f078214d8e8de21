define i64 @f() {
entry:
  %i = alloca i64
  store i64 5, ptr %i
  %v = load i64, ptr %i
  ret i64 %v
}
