@x = external global i64
@x = global i64 1
define void @f() {
entry:
  ret void
}
