define void @f() {
entry:
  ret void
}
!0 = !{i32 +1}
