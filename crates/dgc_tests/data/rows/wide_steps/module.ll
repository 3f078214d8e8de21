@g = global i64 0
define void @f(i64 %a, i64 %b) {
entry:
  %v = sdiv i64 %a, %b
  store i64 %v, i64* @g
  ret void
}
