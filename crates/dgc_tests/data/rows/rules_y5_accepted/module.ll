%Node = type { i64, ptr }
@g = global ptr null
define void @idle() {
entry:
  ret void
}
