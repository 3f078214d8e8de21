define void @f() {
entry:
  ret void
}
!0 = !{i32 +1, double 1.0e+00}
