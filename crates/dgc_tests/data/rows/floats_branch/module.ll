define void @f(double %a) {
entry:
  br double %a, label %out, label %out
out:
  ret void
}
