define void @f(i64 %n, i32 %t) {
  %z = add nusw i64 %n, 1
  ret void
}
