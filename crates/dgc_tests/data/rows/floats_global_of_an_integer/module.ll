@g = global double 1
define void @f() {
entry:
  ret void
}
