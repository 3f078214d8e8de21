declare void @llvm.assume(i1)
define void @f() {
entry:
  %s = alloca i64
  call void @llvm.assume(i1 true) #3 [ "align"(i64* %s, i64 8), "nonnull"(i64* %s) ], !dbg !4
  ret void
}
