define void @f(ptr %p, i64 %n) {
entry:
  %a = alloca i32, [1 x i32] [i32 1]
  ret void
}
