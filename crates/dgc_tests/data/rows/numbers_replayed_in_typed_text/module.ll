%A = type { i64 }
%B = type { i64, i64 }
declare i8* @dg_alloc(i32)
define i64 @f() gc "shadow-stack" {
entry:
  %x = call i8* @dg_alloc(i32 7)
  %none = icmp eq i8* %x, null
  br i1 %none, label %no, label %ok
no:
  ret i64 1
ok:
  ret i64 2
}
