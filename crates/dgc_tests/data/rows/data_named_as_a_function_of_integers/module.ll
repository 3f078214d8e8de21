@llvm.smax.i64 = global { i64 } zeroinitializer
define void @f() {
entry:
  ret void
}
