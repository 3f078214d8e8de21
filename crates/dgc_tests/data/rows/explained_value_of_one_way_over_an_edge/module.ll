define i64 @f(i64 %k) {
entry:
  %c = icmp eq i64 %k, 0
  br i1 %c, label %then, label %join
then:
  %r = add i64 %k, 1
  br label %join
join:
  br label %use
use:
  ret i64 %r
}
