define void @f(i8* %p) {
entry:
  %a = alloca i32, i8* %p
  ret void
}
