%Pair = type { i64, i32 }
@d = constant %Pair { i64 1, i32 2 }
declare void @take(ptr)
define void @f() gc "shadow-stack" {
entry:
  call void @take(ptr @d)
  ret void
}
