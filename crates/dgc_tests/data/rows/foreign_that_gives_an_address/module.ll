declare i64* @words(i64)
define void @f() {
entry:
  %p = call i64* @words(i64 8)
  ret void
}
