%T = type { double, [2 x float], ptr }
define float @f(ptr %t) gc "shadow-stack" {
entry:
  %q = getelementptr %T, ptr %t, i32 0, i32 1, i64 1
  %v = load float, ptr %q
  store double 2.5, ptr %t
  ret float %v
}
