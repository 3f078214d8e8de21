%E = type { i64, %E* }
%M = type { [31 x %E*] }
declare void @llvm.gcroot(i8**, i8*)
define i64 @get(%M* %m, i64 %k) gc "shadow-stack" {
entry:
  %h = urem i64 %k, 0
  %p = getelementptr %M, %M* %m, i64 0, i32 0, i64 %h
  %e = load %E*, %E** %p
  %z = icmp eq %E* %e, null
  br i1 %z, label %no, label %ok
no:
  ret i64 0
ok:
  %q = getelementptr %E, %E* %e, i64 0, i32 0
  %v = load i64, i64* %q
  ret i64 %v
}
