define i64 @count(i64 %k) {
entry:
  br label %loop
loop:
  %i = phi i64 [ 0, %entry ], [ %j, %loop ]
  %j = add i64 %i, 1
  %c = icmp eq i64 %j, %k
  br i1 %c, label %out, label %loop
out:
  ret i64 %i
}
