@x = dso_local external global i32
define void @f() {
entry:
  ret void
}
