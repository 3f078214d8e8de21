define i64 @f(i64 %n) {
entry:
  %v = ptrtoint ptr null to i64
  ret i64 %v
}
