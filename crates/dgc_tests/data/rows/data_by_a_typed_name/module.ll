%Pair = type { i64, i32 }
@d = constant %Pair { i64 1, i32 2 }
declare void @take(%Pair*)
define void @f() gc "shadow-stack" {
entry:
  call void @take(%Pair* @d)
  ret void
}
