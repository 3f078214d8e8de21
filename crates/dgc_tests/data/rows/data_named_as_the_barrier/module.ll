%Pair = type { i64 }
@llvm.gcwrite = global %Pair zeroinitializer
define void @f() {
entry:
  ret void
}
