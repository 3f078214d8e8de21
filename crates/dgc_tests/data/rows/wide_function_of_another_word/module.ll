declare i32 @llvm.sadd.sat.i32(i32, i32)
define void @f() {
entry:
  %v = call i32 @llvm.sadd.sat.i32(i32 1, i32 1)
  ret void
}
