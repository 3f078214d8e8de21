define i64 @pick(i1 %c) {
entry:
  br i1 %c, label %one, label %two
one:
  br label %out
two:
  br label %out
out:
  %v = phi i64 [ 1, %one ], [ 2, %two ], [ 3, %entry ]
  ret i64 %v
}
