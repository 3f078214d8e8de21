%A = type { i64 }
%B = type { i64, i64 }
declare i8* @dg_alloc(i32)
define void @as() gc "shadow-stack" {
entry:
  %a = call i8* @dg_alloc(i32 0)
  %b = bitcast i8* %a to %B*
  ret void
}
