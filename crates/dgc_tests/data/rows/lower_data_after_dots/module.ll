declare i32 @printf(ptr, ...)
@.str = private constant [4 x i8] c"%d\0A\00"
define void @f() {
entry:
  ret void
}
