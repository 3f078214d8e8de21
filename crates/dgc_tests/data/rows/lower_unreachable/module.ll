declare i64 @outside(i64 noundef, i8)
declare void @dg_safepoint()
define internal void @f(i64 %0) #0 {
  %2 = call i64 @outside(i64 %0, i8 3)
  switch i64 %2, label %3 [
    i64 0, label %4
  ]
3:
  unreachable
4:
  ret void
}
attributes #0 = { nounwind }
