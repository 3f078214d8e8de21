define i64 @either(i64 %n) {
entry:
  %c = icmp eq i64 %n, 0
  br i1 %c, label %yes, label %no
yes:
  %a = add i64 %n, 1
  br label %out
no:
  br label %out
out:
  ret i64 %a
}
