@x = extern_weak global i64
define void @f() {
entry:
  ret void
}
