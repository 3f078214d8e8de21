declare void @take(i64)
define void @f(double %a) {
entry:
  call void @take(double %a)
  ret void
}
