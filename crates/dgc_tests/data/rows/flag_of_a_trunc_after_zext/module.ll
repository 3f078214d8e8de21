define void @f(i64 %n, i32 %t) {
  %z = zext nuw i32 %t to i64
  ret void
}
