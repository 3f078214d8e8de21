%Node = type { i64, %Node* }
declare i8* @dg_alloc(i32)
define %Node* @make() gc "shadow-stack" {
entry:
  %a = call i8* @dg_alloc(i32 0)
  %x = bitcast i8* %a to %Node*
  ret %Node* %x
}
