%Node = type { i64, ptr }
define void @w(ptr %n, i8 %i) {
entry:
  %f = getelementptr [200 x {}], ptr %n, i32 0, i8 %i
  ret void
}
