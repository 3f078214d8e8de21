%It = type { i64 }
%Hp = type { ptr, %Hp }
define void @f() {
entry:
  ret void
}
