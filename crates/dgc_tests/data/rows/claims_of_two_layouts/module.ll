%Node = type { i64, %Node* }
%Pair = type { i64, i64 }
declare i8* @dg_alloc(i32)
define i8* @each() gc "shadow-stack" {
entry:
  %a = call i8* @dg_alloc(i32 0)
  %b = call i8* @dg_alloc(i32 1)
  ret i8* %b
}
