@d = global [4 x i8]* null
declare void @take(i8*)
define void @f() gc "shadow-stack" {
entry:
  call void @take(i8* bitcast ([4 x i8]** @d to i8*))
  ret void
}
