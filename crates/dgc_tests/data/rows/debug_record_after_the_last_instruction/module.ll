define void @f(i64 %n) {
  ret void
    #dbg_value(i64 %n, !2, !DIExpression(), !3)
}
