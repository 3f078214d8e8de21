%A = type { i64 }
%B = type { i64, i64 }
declare ptr @dg_alloc(i32)
define i64 @f() gc "shadow-stack" {
entry:
  %x = call ptr @dg_alloc(i32 1)
  ret i64 2
}
