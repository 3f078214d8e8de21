declare i64 @next()
define void @f() {
entry:
  call i64 @next()
  ret void
}
