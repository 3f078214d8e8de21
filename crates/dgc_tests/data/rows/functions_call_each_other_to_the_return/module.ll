%T = type { i64 }
declare i8* @dg_alloc(i32)
define void @main(i64 %n) gc "shadow-stack" {
entry:
  %v = call i64 @even(i64 %n)
  %c = icmp eq i64 %v, 1
  br i1 %c, label %yes, label %no
yes:
  %a = call i8* @dg_alloc(i32 0)
  ret void
no:
  ret void
}
define i64 @even(i64 %n) {
entry:
  %c = icmp eq i64 %n, 0
  br i1 %c, label %out, label %on
on:
  %m = sub i64 %n, 1
  %v = call i64 @odd(i64 %m)
  ret i64 %v
out:
  ret i64 1
}
define i64 @odd(i64 %n) {
entry:
  %c = icmp eq i64 %n, 0
  br i1 %c, label %out, label %on
on:
  %m = sub i64 %n, 1
  %v = call i64 @even(i64 %m)
  ret i64 %v
out:
  ret i64 0
}
