%"No de" = type { i64, %"No de"* }
define i64 @"a b"(%"No de"* %"p q", i64 %"k 1") gc "shadow-stack" {
entry:
  br label %"o k"
"o k":
  ret i64 %"k 1"
}
