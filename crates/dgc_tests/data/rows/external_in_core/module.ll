@x = external global ptr, align 8
define void @f() {
entry:
  ret void
}
