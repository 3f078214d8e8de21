%"a b" = type { i64 }
@d = constant %"a b" { i64 1 }
declare void @take(ptr)
define void @f() gc "shadow-stack" {
entry:
  call void @take(ptr @d)
  ret void
}
