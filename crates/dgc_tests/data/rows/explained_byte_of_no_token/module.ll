define void @f() {
  ret évoid
}
