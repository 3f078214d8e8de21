%Node = type { i64, %Node* }
@g = global %Node* null
declare i8* @dg_alloc(i32)
declare void @dg_safepoint()
declare void @llvm.gcroot(i8**, i8*)
declare i8* @llvm.gcread(i8*, i8**)
declare void @llvm.gcwrite(i8*, i8*, i8**)
define i8 @number(i8 %n) {
entry:
  ret i8 %n
}
define i8* @null() gc "shadow-stack" {
entry:
  ret i8* null
}
define void @over() {
entry:
  unreachable
}
define i8* @cell() gc "shadow-stack" {
entry:
  %a = call i8* @dg_alloc(i32 0)
  ret i8* %a
}
