define void @f(i32 %a) {
entry:
  %v = bitcast i32 %a to double
  ret void
}
