define void @f(i64 %n, i32 %t) {
  %z = xor disjoint i64 %n, 1
  ret void
}
