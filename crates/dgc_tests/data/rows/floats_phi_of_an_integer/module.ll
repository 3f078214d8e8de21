define double @f(i64 %a) {
entry:
  br label %next
next:
  %v = phi double [ %a, %entry ]
  ret double %v
}
