define void @f(i64 %n, i32 %t) {
  %z = icmp ult samesign i64 %n, 1
  ret void
}
