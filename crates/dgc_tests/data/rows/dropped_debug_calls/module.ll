declare void @llvm.dbg.declare(metadata, metadata, metadata) #1
declare void @llvm.dbg.value(metadata, metadata, metadata) #1
define void @f() {
entry:
  %s = alloca i64
  call void @llvm.dbg.declare(metadata i64* %s, metadata !1, metadata !DIExpression()), !dbg !2
  call void @llvm.dbg.value(metadata i64 0, metadata !1, metadata !DIExpression(DW_OP_plus_uconst, 8)), !dbg !2
  ret void
}
