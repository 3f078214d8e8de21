declare i64 @read(i32, ptr, i64)
define i8 @first() gc "shadow-stack" {
entry:
  %a = alloca [64 x i8]
  %n = call i64 @read(i32 0, ptr %a, i64 64)
  %c = load i8, ptr %a
  ret i8 %c
}
