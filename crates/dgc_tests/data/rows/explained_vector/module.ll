define void @f() {
entry:
  %v = add <2 x i64> zeroinitializer, zeroinitializer
  ret void
}
