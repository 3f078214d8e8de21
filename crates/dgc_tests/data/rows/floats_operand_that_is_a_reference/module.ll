%T = type { i64, %T* }
define double @f(%T* %t) gc "shadow-stack" {
entry:
  %v = fadd double 1.0, %t
  ret double %v
}
