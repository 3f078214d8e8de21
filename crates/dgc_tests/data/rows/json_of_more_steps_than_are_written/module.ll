%Node = type { i64 }
declare void @dg_safepoint()
define void @wait() gc "shadow-stack" {
entry:
  br label %again
again:
  call void @dg_safepoint()
  br label %again
}
