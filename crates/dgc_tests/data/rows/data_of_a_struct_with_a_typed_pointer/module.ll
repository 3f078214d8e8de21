%Name = type { i64, i8* }
@d = constant %Name { i64 1, i8* null }
define void @f() {
entry:
  ret void
}
