define void @go() {
entry:
  br label %out
out:
  ret void
}
