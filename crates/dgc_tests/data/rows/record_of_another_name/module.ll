define void @f(i64 %n) {
    #value(i64 %n)
  ret void
}
