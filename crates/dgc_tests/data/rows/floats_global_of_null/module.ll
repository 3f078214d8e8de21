@g = global double null
define void @f() {
entry:
  ret void
}
