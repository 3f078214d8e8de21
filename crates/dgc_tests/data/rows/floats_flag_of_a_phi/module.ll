define double @f(double %a) {
entry:
  br label %next
next:
  %v = phi nnan double [ %a, %entry ]
  ret double %v
}
