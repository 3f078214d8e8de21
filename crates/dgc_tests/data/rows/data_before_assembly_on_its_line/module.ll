@d = constant [1 x i8] c"a" module asm "nop"
define void @f() {
entry:
  ret void
}
