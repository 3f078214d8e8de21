%Pair = type { i64, i32 }
@d = constant %Pair zeroinitializer
define void @f() {
entry:
  ret void
}
