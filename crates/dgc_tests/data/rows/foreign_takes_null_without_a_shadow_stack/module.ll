declare void @free(i8*)
define void @f() {
entry:
  call void @free(i8* null)
  ret void
}
