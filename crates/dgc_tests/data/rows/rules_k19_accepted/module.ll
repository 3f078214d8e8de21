%Node = type { i64, %Node* }
define i8* @as_any(%Node* %n) gc "shadow-stack" {
entry:
  %x = bitcast %Node* %n to i8*
  ret i8* %x
}
