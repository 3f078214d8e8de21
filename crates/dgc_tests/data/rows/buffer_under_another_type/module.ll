%N = type { i64, %N* }
declare i32 @puts(i8*)
declare i8* @getenv(i8*)
declare i32* @counts()
declare i8* @dg_alloc(i32)
define i32 @f() gc "shadow-stack" {
entry:
  %a = alloca [2 x i8]
  %p = bitcast [2 x i8]* %a to i8*
  %r = call i32 @puts(i8* %p)
  ret i32 0
}
