define void @f(i64 %n, i32 %t) {
  %z = sext nneg i32 %t to i64
  ret void
}
