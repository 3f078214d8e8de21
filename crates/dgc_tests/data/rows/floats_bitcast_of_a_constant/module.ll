define i64 @f() {
entry:
  %v = bitcast double 1.25e+00 to i64
  ret i64 %v
}
