define void @deep() {
entry:
  br label %next
next:
  %s = alloca i64
  ret void
}
