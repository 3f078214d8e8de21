declare void @take(double)
define void @f(float %a) {
entry:
  call void @take(float %a)
  ret void
}
