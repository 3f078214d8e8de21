%A = type { i64 }
%B = type { i64, i64 }
define void @take(ptr %a) gc "shadow-stack" {
entry:
  ret void
}
define void @give(ptr %b) gc "shadow-stack" {
entry:
  call void @take(ptr %b)
  ret void
}
