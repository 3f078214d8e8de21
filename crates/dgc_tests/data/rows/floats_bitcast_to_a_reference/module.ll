%T = type { i64, %T* }
define void @f(double %a) gc "shadow-stack" {
entry:
  %v = bitcast double %a to %T*
  ret void
}
