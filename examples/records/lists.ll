%Node = type { i64, ptr }
@top = global ptr null
@rounds = global i64 0
define void @work() gc "shadow-stack" {
entry:
  ret void
}
