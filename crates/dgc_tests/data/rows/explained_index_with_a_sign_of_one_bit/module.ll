%Node = type { i64, ptr }
%Arr = type { [4 x i64], [2 x ptr] }
define void @w(ptr %n, i1 %b) {
entry:
  %f = getelementptr [2 x i64], ptr %n, i32 0, i1 %b
  ret void
}
