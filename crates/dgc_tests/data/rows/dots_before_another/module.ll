declare i32 @printf(ptr, ..., i32)
define void @f() {
entry:
  ret void
}
