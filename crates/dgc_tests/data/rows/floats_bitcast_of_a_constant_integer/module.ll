define double @f() {
entry:
  %v = bitcast i64 5 to double
  ret double %v
}
