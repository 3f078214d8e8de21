%Node = type { i64, ptr }
%Arr = type { [4 x i64], [2 x ptr] }
define void @w(ptr %n, i64 %k) gc "shadow-stack" {
entry:
  %i = and i64 %k, 3
  %f = getelementptr [4 x %Node], ptr %n, i32 0, i64 %i, i32 0
  ret void
}
