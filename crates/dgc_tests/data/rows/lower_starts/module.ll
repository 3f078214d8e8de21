%"a b" = type { ptr }
define ptr @none(i64 %a, i33 %b) {
entry:
  ret ptr null
}
define void @takes_a_cell(ptr %p) {
entry:
  ret void
}
define i1 @"c\22d"(i1 %c) {
entry:
  ret i1 %c
}
