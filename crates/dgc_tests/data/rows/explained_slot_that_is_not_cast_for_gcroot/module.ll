%Node = type { i64, %Node* }
%Pair = type { i64, %Pair* }
declare void @llvm.gcroot(i8**, i8*)
define void @f(i64 %k) gc "shadow-stack" {
entry:
  %s = alloca %Node*
  call void @llvm.gcroot(%Node** %s, i8* null)
  ret void
}
