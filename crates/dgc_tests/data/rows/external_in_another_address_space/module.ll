@x = external addrspace(1) global i32
define void @f() {
entry:
  ret void
}
