@d = private constant [6 x i8] c"hello\00"
define i8 @at(ptr %p, i64 %i) gc "shadow-stack" {
entry:
  %q = getelementptr i8, ptr %p, i64 %i
  %c = load i8, ptr %q
  ret i8 %c
}
define i8 @f(i64 %i) gc "shadow-stack" {
entry:
  %c = call i8 @at(ptr @d, i64 %i)
  ret i8 %c
}
