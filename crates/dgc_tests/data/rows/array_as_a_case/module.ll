define void @f(i64 %n) {
  switch i64 %n, label %a [ i64 [1]
