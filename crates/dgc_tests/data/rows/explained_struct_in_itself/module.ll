source_filename = "list.c"
%Node = type { i64, ptr }
%List = type { i64, %List }
define void @idle() {
entry:
  ret void
}
