define i64 @later(i64 %n) {
entry:
  %k = add i64 %n, 1
  br label %one
one:
  br label %two
two:
  br label %three
three:
  ret i64 %k
}
