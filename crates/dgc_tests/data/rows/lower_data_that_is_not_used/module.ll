define void @f() {
entry:
  ret void
}
@d = constant { i64 } { i64 1 }
