%N = type { i64 }
@a = private constant [2 x i8] c"a\00"
@b = private constant [2 x i8] c"b\00"
declare i32 @puts(ptr)
define ptr @name() gc "shadow-stack" {
entry:
  ret ptr @a
}
define i32 @f() gc "shadow-stack" {
entry:
  %s = call ptr @name()
  %r = call i32 @puts(ptr %s)
  ret i32 0
}
