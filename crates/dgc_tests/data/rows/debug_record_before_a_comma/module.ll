define void @f(i64 %n) {
  %a = add i64 %n, 1
    #dbg_value(i64 %n, !2, !DIExpression(), !3), !dbg !3
  ret void
}
