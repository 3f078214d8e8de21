define i64 @pick(i1 %c) {
entry:
  br i1 %c, label %one, label %two
one:
  br label %two
two:
  %v = phi i64 [ 1, %one ]
  ret i64 %v
}
