%N = type { i64, %N* }
declare i32 @puts(i8*)
declare i8* @getenv(i8*)
declare i32* @counts()
declare i8* @dg_alloc(i32)
define i32 @f(i64 %n) gc "shadow-stack" {
entry:
  %a = alloca i32, i64 %n
  %p = getelementptr i32, i32* %a, i64 %n
  store i32 1, i32* %p
  ret i32 0
}
