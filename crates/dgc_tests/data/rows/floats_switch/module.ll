define void @f(double %a) {
entry:
  switch double %a, label %out [ double 1.0, label %out ]
out:
  ret void
}
