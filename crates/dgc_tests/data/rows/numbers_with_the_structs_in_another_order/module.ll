%B = type { i64, i64 }
%A = type { i64 }
declare ptr @dg_alloc(i32)
define void @f() gc "shadow-stack" {
entry:
  %x = call ptr @dg_alloc(i32 1)
  br label %next
next:
  ret void
}
