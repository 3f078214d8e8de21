%Node = type { i64, ptr }
@d = constant %Node { i64 1, ptr null }
declare void @take(ptr)
define void @f() gc "shadow-stack" {
entry:
  call void @take(ptr @d)
  ret void
}
