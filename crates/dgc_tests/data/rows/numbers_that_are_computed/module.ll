%A = type { i64 }
%B = type { i64, i64 }
declare ptr @dg_alloc(i32)
define void @f(i32 %n) gc "shadow-stack" {
entry:
  %one = add i32 %n, 1
  %x = call ptr @dg_alloc(i32 %one)
  ret void
}
