%E = type { i64 }
define i64 @f(%E* nocapture %p, i64 %n) {
entry:
  %q = getelementptr %E, %E* %p, i32 0, i32 0
  %w = load i64, i64* %q
  %v = tail call i64 @llvm.umin.i64(i64 %w, i64 noundef %n) #1
  %z = call i64 @llvm.ctlz.i64(i64 %v, i1 immarg true), !range !0
  %s = call i64 @llvm.fshl.i64(i64 %v, i64 %z, i64 -1)
  ret i64 %s
}
declare i64 @llvm.umin.i64(i64, i64) #1
declare i64 @llvm.ctlz.i64(i64 %0, i1 immarg) #1
declare i64 @llvm.fshl.i64(i64, i64, i64)
