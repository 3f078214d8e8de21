define i32 @f(i32 %a, i1 %c) {
entry:
  %b = add nuw nsw i32 %a, -1
  %w = zext nneg i32 %b to i64
  %n = icmp ult i64 %w, 9
  %s = select i1 %n, i32 %b, i32 undef
  br i1 %c, label %more, label %end
more:
  br label %end
end:
  %r = phi i32 [ %s, %entry ], [ 5, %more ]
  ret i32 %r
}
