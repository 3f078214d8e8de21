@llvm.gcroot = extern_weak global ptr
define void @f() {
entry:
  ret void
}
