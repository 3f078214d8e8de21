define float @f(float %a) {
entry:
  br label %next
next:
  ret float %a
}
