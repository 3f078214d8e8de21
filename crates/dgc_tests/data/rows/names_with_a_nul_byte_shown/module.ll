; @"a\00b" is a name of its own, and not @a.
declare void @dg_safepoint()

define void @"a\00b"() {
"\00":
  call void @dg_safepoint()
  ret void
}

define void @a() {
entry:
  call void @"a\00b"()
  ret void
}
