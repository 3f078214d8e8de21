define i64 @pick(i1 %c) {
entry:
  br label %two
two:
  %v = phi i64 [ 1, %entry ], [ 2, %entry ]
  ret i64 %v
}
