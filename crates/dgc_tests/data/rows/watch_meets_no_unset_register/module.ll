define i64 @f(i64 %n) {
entry:
  %c = icmp eq i64 %n, 0
  br i1 %c, label %a, label %b
a:
  %v = add i64 %n, 1
  br label %b
b:
  %m = phi i64 [ %n, %entry ], [ %v, %a ]
  %w = add i64 %m, 1
  ret i64 %v
}
