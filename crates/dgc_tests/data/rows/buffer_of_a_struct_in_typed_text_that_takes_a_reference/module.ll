%N = type { i64, %N* }
@a = private constant [2 x i8] c"a\00"
@count = external global i32
declare i32 @puts(i8*)
declare i8* @getenv(i8*)
declare i32* @counts()
declare i8* @dg_alloc(i32)
define i32 @f() gc "shadow-stack" {
entry:
  %s = alloca %N
  %x = call i8* @dg_alloc(i32 0)
  %y = bitcast i8* %x to %N*
  %p = getelementptr %N, %N* %s, i32 0, i32 1
  store %N* %y, %N** %p
  ret i32 0
}
