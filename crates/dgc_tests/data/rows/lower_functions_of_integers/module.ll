declare void @dg_safepoint()
declare i16 @llvm.bswap.i16(i16)
declare i16 @llvm.abs.i16(i16, i1)
define i16 @f(i16 %a) gc "shadow-stack" {
entry:
  %s = tail call i16 @llvm.bswap.i16(i16 %a)
  call void @dg_safepoint()
  %z = call i16 @llvm.abs.i16(i16 %s, i1 true)
  ret i16 %z
}
