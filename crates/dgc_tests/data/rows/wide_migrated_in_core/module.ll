%E = type { i64 }
define i64 @f(%E* %p, i64 %n) {
entry:
  %q = getelementptr %E, %E* %p, i32 0, i32 0
  %w = load i64, i64* %q
  %v = sdiv i64 %w, %n
  ret i64 %v
}
