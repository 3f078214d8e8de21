define double @f() {
entry:
  ret double -0x3FF4000000000000
}
