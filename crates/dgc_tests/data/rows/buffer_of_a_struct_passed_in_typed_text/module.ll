%N = type { i64, %N* }
declare i32 @puts(i8*)
declare i8* @getenv(i8*)
declare i32* @counts()
declare i8* @dg_alloc(i32)
define i32 @f() gc "shadow-stack" {
entry:
  %s = alloca %N
  call void @take(%N* %s)
  ret i32 0
}
define void @take(%N* %x) gc "shadow-stack" {
entry:
  ret void
}
