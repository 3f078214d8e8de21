@x = external i32
define void @f() {
entry:
  ret void
}
