%T = type { double, ptr }
define float @f(ptr %t) gc "shadow-stack" {
entry:
  %v = load float, ptr %t
  ret float %v
}
