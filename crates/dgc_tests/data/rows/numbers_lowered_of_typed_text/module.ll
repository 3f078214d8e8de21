%A = type { i64 }
%B = type { i64, i64 }
declare i8* @dg_alloc(i32)
define void @f() gc "shadow-stack" {
entry:
  %c = call i8* @dg_alloc(i32 5)
  ret void
}
