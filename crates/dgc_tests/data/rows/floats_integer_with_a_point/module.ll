define i64 @f() {
entry:
  ret i64 1.0
}
