define void @f(i64 %n) {
    #dbg_value(i64 %n, !2, !DIExpression(), !3
  ret void
}
