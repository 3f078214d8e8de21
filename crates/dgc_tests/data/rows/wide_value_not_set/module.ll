define i64 @f(i64 %n) {
entry:
  %v = udiv i64 %w, 3
  %w = udiv i64 %n, 3
  ret i64 %v
}
