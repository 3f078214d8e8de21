@g = global i64 0
define i64 @f(i8* %p) {
entry:
  %v = load i64, i64* bitcast (ptr @g to i64*)
  ret i64 %v
}
