%N = type { i64 }
@a = private constant [2 x i8] c"a\00"
@b = private constant [2 x i8] c"b\00"
declare i32 @puts(ptr)
define i32 @f() gc "shadow-stack" {
entry:
  %a = alloca [2 x i8]
  %r = call i32 @puts(ptr %a)
  ret i32 0
}
