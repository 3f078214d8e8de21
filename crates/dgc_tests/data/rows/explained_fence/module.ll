define i64 @f(i64 %n) {
entry:
  fence seq_cst
  ret i64 %v
}
