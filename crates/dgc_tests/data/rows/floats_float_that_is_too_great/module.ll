define float @f() {
entry:
  ret float 1.0e+300
}
