define void @deep() {
entry:
  %s = alloca i64
  br label %next
next:
  ret void
}
