define i64 @f() {
entry:
  ret i64 0x10
}
