@g = global float 0.0
define void @f() {
entry:
  ret void
}
