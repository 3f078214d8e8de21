define void @f() {
entry:
  %s = alloca i64, double 1.0
  ret void
}
