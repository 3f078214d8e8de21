@g = global double 0.0
define i64 @f() {
entry:
  %v = load i64, i64* bitcast (double* @g to i64*)
  ret i64 %v
}
