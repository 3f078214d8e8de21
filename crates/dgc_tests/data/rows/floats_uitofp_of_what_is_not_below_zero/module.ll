define double @f(i32 %a) {
entry:
  %v = uitofp nneg i32 %a to double
  ret double %v
}
