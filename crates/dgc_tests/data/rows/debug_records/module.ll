define i64 @f(i64 %n, i1 %c) !dbg !1 {
    #dbg_value(i64 %n, !2, !DIExpression(DW_OP_plus_uconst, 1, DW_OP_stack_value), !3)
    #dbg_declare(ptr poison, !2, !DIExpression(), !3)
  %s = alloca i64, align 8, !DIAssignID !5
    #dbg_assign(i1 undef, !2, !DIExpression(), !5, ptr %s, !DIExpression(), !3)
  %a = add i64 %n, 1, !dbg !3
    #dbg_value(!DIArgList(i64 %a, i64 %n), !2, !DIExpression(DW_OP_LLVM_arg, 0), !3)
    #dbg_value(i64 %a, !2, !DIExpression(), !3)
  br label %b, !dbg !3
b:
    #dbg_value(i64 %n, !2, !DIExpression(), !3)
  %p = phi i64 [ %a, %0 ], [ %q, %b ], !dbg !3
    #dbg_label(!4, !3)
  %q = phi i64 [ %n, %0 ], [ %p, %b ]
    #dbg_declare_value(i64 %q, !2, !DIExpression(), !3)
  br i1 %c, label %b, label %1
    #dbg_value(i64 %q, !2, !DIExpression(), !3)
  store i64 %p, i64* %s #dbg_value(i64 0, !2, !DIExpression(), !3)
  ret i64 %p, !dbg !3
}
