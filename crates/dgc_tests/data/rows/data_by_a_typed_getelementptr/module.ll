@d = private constant [6 x i8] c"hello\00"
declare void @take(i8*)
define void @f() gc "shadow-stack" {
entry:
  call void @take(i8* getelementptr inbounds ([6 x i8], [6 x i8]* @d, i64 0, i64 0))
  ret void
}
