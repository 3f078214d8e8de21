define double @f(double %a) {
entry:
  br label %next
next:
  ret double %a
}
