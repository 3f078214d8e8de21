%Node = type { i64, %Node* }
declare i32 @putchar(i32)
define void @f(%Node* %n) gc "shadow-stack" {
entry:
  %r = call i32 (i32) @putchar(i32 65)
  ret void
}
