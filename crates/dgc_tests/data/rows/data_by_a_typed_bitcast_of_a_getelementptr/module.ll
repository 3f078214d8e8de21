@d = private constant [6 x i8] c"hello\00"
declare void @take(i8*)
define void @f() gc "shadow-stack" {
entry:
  call void @take(i8* bitcast ([6 x i8]* getelementptr ([6 x i8], [6 x i8]* @d, i64 1) to i8*))
  ret void
}
