%N = type { i64, %N* }
declare i32 @puts(i8*)
define i32 @f(i64 %n) gc "shadow-stack" {
entry:
  %a = alloca [2 x i8], align 1
  %b = alloca i32, i64 %n, align 4
  %s = alloca %N
  %p = bitcast [2 x i8]* %a to i8*
  %r = call i32 @puts(i8* %p)
  ret i32 0
}
