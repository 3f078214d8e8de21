define void @f(i64 %n) {
    #dbg_value !2
  ret void
}
