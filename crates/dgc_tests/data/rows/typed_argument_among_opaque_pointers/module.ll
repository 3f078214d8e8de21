declare void @g(ptr)
define void @f(ptr %p) {
entry:
  call void @g(i8* null)
  ret void
}
