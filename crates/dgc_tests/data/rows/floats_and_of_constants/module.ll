define float @f() {
entry:
  %v = and float 1.0, 2.0
  ret float %v
}
