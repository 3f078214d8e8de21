@d = private constant [6 x i8] c"hello\00"
declare void @take(i8*)
define void @f() gc "shadow-stack" {
entry:
  call void @take(i8* getelementptr (i8, i8* bitcast ([6 x i8]* @d to i8*), i64 2))
  ret void
}
