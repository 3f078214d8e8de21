%N = type { i64 }
@a = private constant [2 x i8] c"a\00"
@b = private constant [2 x i8] c"b\00"
declare i32 @puts(ptr)
define i32 @f(i1 %c) gc "shadow-stack" {
entry:
  %a = alloca [2 x i8]
  br i1 %c, label %one, label %two
one:
  %r = call i32 @puts(ptr %a)
  br label %two
two:
  ret i32 0
}
