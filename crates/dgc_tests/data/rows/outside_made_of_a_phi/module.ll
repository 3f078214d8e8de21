%N = type { i64 }
@a = private constant [2 x i8] c"a\00"
@b = private constant [2 x i8] c"b\00"
declare i32 @puts(ptr)
define i32 @f(i1 %c) gc "shadow-stack" {
entry:
  br i1 %c, label %one, label %two
one:
  br label %join
two:
  br label %join
join:
  %s = phi ptr [ @a, %one ], [ @b, %two ]
  %r = call i32 @puts(ptr %s)
  ret i32 0
}
