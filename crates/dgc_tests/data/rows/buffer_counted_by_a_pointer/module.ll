define void @f(ptr %p, i64 %n) {
entry:
  %a = alloca i32, ptr %p
  ret void
}
