%A = type { i64 }
%B = type { i64, i64 }
declare i8* @dg_alloc(i32)
declare void @llvm.gcroot(i8**, i8*)
define void @f() gc "shadow-stack" {
entry:
  %s = alloca %A*
  %r = bitcast %A** %s to i8**
  call void @llvm.gcroot(i8** %r, i8* null)
  %c = call i8* @dg_alloc(i32 1)
  %x = bitcast i8* %c to %A*
  ret void
}
