define void @f(i64 %a) {
entry:
  call void @f(i64 noundef 1.0)
  ret void
}
