%A = type { i64 }
%B = type { i64, i64 }
define void @f() {
entry:
  ret void
}
