define i64 @g(i64 %a) {
entry:
  ret i64 %a
}
define i64 @f() {
entry:
  %r = call i64 (i64) @g(i64 1)
  ret i64 %r
}
