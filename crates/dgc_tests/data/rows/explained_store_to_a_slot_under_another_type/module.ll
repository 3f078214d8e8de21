%Node = type { i64, %Node* }
%Pair = type { i64, %Pair* }
declare void @llvm.gcroot(i8**, i8*)
define void @f(i64 %k) gc "shadow-stack" {
entry:
  %s = alloca %Node*
  %r = bitcast %Node** %s to i8**
  call void @llvm.gcroot(i8** %r, i8* null)
  store i64 %k, i64* %s
  ret void
}
