%N = type { i64 }
@a = private constant [2 x i8] c"a\00"
@b = private constant [2 x i8] c"b\00"
declare i32 @puts(ptr)
define void @say(ptr %what) gc "shadow-stack" {
entry:
  %r = call i32 @puts(ptr %what)
  ret void
}
define i32 @f() gc "shadow-stack" {
entry:
  %a = alloca [4 x i8]
  call void @say(ptr %a)
  ret i32 0
}
