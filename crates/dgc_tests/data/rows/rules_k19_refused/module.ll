%Node = type { i64, %Node* }
%Pair = type { i64, i64 }
define i64 @as_pair(%Node* %n) gc "shadow-stack" {
entry:
  %x = bitcast %Node* %n to %Pair*
  %p = getelementptr %Pair, %Pair* %x, i32 0, i32 1
  %v = load i64, i64* %p
  ret i64 %v
}
