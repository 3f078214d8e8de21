%A = type { i64 }
%B = type { i64, i64 }
declare ptr @dg_alloc(i32)
define void @f() gc "shadow-stack" {
entry:
  %x = call ptr @dg_alloc(i32 40)
  br label %next
next:
  ret void
}
define void @g() gc "shadow-stack" {
entry:
  %y = call ptr @dg_alloc(i32 41)
  br label %next
next:
  ret void
}
