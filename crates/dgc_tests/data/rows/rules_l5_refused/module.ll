define void @go() {
entry:
  br label %our
out:
  ret void
}
