define void @f(ptr %p, i64 %n) {
entry:
  %a = alloca <4 x i32>
  ret void
}
