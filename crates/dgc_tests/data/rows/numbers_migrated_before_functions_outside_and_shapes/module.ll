%Node = type { i64, %Node* }
declare i8* @dg_alloc(i32)
declare i32 @putchar(i32)
define i32 @f(i32 %c) gc "shadow-stack" {
entry:
  %r = call i32 @putchar(i32 %c)
  %x = call i8* @dg_alloc(i32 4)
  ret i32 %r
}
