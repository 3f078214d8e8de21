define i1 @f(float %a) {
entry:
  %c = icmp eq float %a, %a
  ret i1 %c
}
