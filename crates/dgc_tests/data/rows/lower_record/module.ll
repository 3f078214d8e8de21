%T = type { i8, ptr, i64 }
declare void @dg_safepoint()
define i64 @f(ptr %p) gc "shadow-stack" {
entry:
  %s = alloca i64
  store i64 1, ptr %s
  %v = load i8, ptr %p
  store i8 %v, ptr %p
  %a = getelementptr %T, ptr %p, i32 0, i32 1
  %w = load ptr, ptr %a
  store ptr null, ptr %a
  %b = getelementptr %T, ptr %p, i32 0, i32 2
  %x = load i64, ptr %b
  store i64 %x, ptr %b
  call void @dg_safepoint()
  ret i64 %x
}
