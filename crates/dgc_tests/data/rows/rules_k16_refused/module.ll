define i64 @choose(i1 %c) {
entry:
  br i1 %c, label %one, label %two
one:
  br label %two
two:
  %v = phi i64 [ 1, %one ], [ 2, %entry ], [ 3, %two ]
  ret i64 %v
}
