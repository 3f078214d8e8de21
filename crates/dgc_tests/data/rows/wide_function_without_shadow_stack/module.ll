%Node = type { i64, ptr }
declare i64 @llvm.ctpop.i64(i64)
define i64 @f(ptr %n, i64 %a) {
entry:
  %v = call i64 @llvm.ctpop.i64(i64 %a)
  ret i64 %v
}
