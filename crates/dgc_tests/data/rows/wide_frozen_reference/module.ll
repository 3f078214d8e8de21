%N = type { i64, %N* }
declare void @dg_safepoint()
define i64 @f(%N* %n) gc "shadow-stack" {
entry:
  %m = freeze %N* %n
  %p = getelementptr %N, %N* %m, i32 0, i32 0
  %v = load i64, i64* %p
  ret i64 %v
}
