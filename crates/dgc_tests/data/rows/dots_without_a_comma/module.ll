declare i32 @printf(ptr ...)
define void @f() {
entry:
  ret void
}
