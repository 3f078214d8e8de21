define void @g() gc "shadow-stack" {
entry:
  ret void
}
define void @f() gc "shadow-stack" {
entry:
  %a = alloca [2 x i8]
  store i8 1, ptr %a
  ret void
}
