define void @f(i64 %n) {
entry:
  switch i64 %n, label %b1 [
    i64 2, label %b2
    i64 3, label %b3
    i64 4, label %b4
    i64 5, label %b5
    i64 6, label %b6
    i64 7, label %b7
    i64 8, label %b8
    i64 9, label %b9
    i64 10, label %b10
  ]
b1:
  ret void
b2:
  ret void
b3:
  ret void
b4:
  ret void
b5:
  ret void
b6:
  ret void
b7:
  ret void
b8:
  ret void
b9:
  ret void
b10:
  ret void
}
