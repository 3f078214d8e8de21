define void @down(i64 %n) {
entry:
  %c = icmp eq i64 %n, 0
  br i1 %c, label %out, label %on
on:
  %m = sub i64 %n, 1
  call void @down(i64 %m)
  ret void
out:
  ret void
}
