%Node = type { i64, %Node* }
declare i8* @llvm.gcread(i8*, i8**)
define i8* @next(%Node* %n, %Node* %other) gc "shadow-stack" {
entry:
  %f = getelementptr %Node, %Node* %n, i32 0, i32 1
  %q = bitcast %Node** %f to i8**
  %o = bitcast %Node* %n to i8*
  %r = call i8* @llvm.gcread(i8* %o, i8** %q)
  ret i8* %r
}
