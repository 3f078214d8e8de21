%Node = type { i64, ptr }
define i64 @f(ptr %n) gc "shadow-stack" {
entry:
	%p	= getelementptr %Node, ptr %n, i32 0, i32 0
	%v	= load i64, ptr %p
	ret i64 %v
}
