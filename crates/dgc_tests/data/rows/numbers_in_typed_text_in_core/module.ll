%A = type { i64 }
%B = type { i64, i64 }
declare i8* @dg_alloc(i32)
define void @f() gc "shadow-stack" {
entry:
  %c = call i8* @dg_alloc(i32 7)
  %x = bitcast i8* %c to %A*
  br label %next
next:
  ret void
}
