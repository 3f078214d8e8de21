@x = external thread_local global i32
define void @f() {
entry:
  ret void
}
