; An index without a bound: the argument is used as an index into eight elements.
%Row = type { [8 x i64] }
declare i8* @dg_alloc(i32)
declare void @dg_safepoint()
declare void @llvm.gcroot(i8**, i8*)
declare i8* @llvm.gcread(i8*, i8**)
declare void @llvm.gcwrite(i8*, i8*, i8**)
define i64 @at(i64 %i) gc "shadow-stack" {
entry:
  %a = call i8* @dg_alloc(i32 0)
  %x = bitcast i8* %a to %Row*
  %none = icmp eq %Row* %x, null
  br i1 %none, label %no, label %some
no:
  ret i64 0
some:
  %p = getelementptr %Row, %Row* %x, i32 0, i32 0, i64 %i
  %v = load i64, i64* %p
  ret i64 %v
}
