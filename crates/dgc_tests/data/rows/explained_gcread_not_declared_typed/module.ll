%Node = type { i64, %Node* }
@top = global %Node* null
define void @look() gc "shadow-stack" {
entry:
  %v = call i8* @llvm.gcread(i8* null, i8** bitcast (%Node** @top to i8**))
  ret void
}
