%T = type { i1, i33, ptr, i64, [2 x i8] }
define void @f(ptr %p) gc "shadow-stack" {
entry:
  %a = getelementptr inbounds %T, ptr %p, i32 0, i32 0
  %v = load i1, ptr %a, align 1
  store i1 %v, ptr %a
  %b = getelementptr %T, ptr %p, i32 0, i32 1
  %w = load i33, ptr %b
  store i33 7, ptr %b
  %c = getelementptr %T, ptr %p, i32 0, i32 2
  %x = load ptr, ptr %c
  store ptr %x, ptr %c
  %d = getelementptr %T, ptr %p, i32 0, i32 3
  %y = load volatile i64, ptr %d
  store i64 %y, ptr %d
  ret void
}
