declare i1 @flag()
define void @f() {
entry:
  %b = call i1 @flag()
  br i1 %b, label %one, label %two
one:
  ret void
two:
  ret void
}
