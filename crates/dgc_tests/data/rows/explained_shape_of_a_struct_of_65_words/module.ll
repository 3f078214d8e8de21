%It = type { i64 }
%Hp = type { i64, [64 x ptr] }
define void @f() {
entry:
  ret void
}
