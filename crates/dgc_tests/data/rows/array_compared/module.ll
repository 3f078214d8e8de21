define void @f(i64 %n) {
  %x = icmp eq i64 %n, [1 x i64]
