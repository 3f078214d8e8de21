define void @f(ptr %p, i64 %n) {
entry:
  %a = alloca [64 x i8]
  ret void
}
