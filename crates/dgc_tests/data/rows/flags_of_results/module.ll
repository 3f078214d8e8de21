define i64 @f(i64 %n, i1 %c) {
  %a = add nuw nsw i64 %n, 1
  %b = sub nsw nuw i64 %a, 1
  %m = mul nuw i64 %b, 2
  %o = or disjoint i64 %m, 1
  %t = trunc nuw nsw i64 %o to i32
  %z = zext nneg i32 %t to i64
  %i = icmp samesign ult i64 %z, %n
  %s = select i1 %i, i64 %z, i64 %n
  ret i64 %s
}
