%Node = type { i64, ptr }
define i64 @"a b"(ptr %"the list") gc "shadow-stack" {
"the entry":
  %"p q" = getelementptr %Node, ptr %"the list", i32 0, i32 0
  %v = load i64, ptr %"p q"
  ret i64 %v
}
