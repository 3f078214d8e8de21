declare void @take(i32*)
define void @f() {
entry:
  call void @take(i32* null)
  ret void
}
