define void @f(i64 %n) {
entry:
  %v = fadd <2 x double> zeroinitializer, zeroinitializer
  ret void
}
