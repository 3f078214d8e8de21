%FILE = type { i32, i8* }
@stderr = external global %FILE*
declare i32 @fputc(i32, %FILE*)
define void @f() gc "shadow-stack" {
entry:
  %s = load %FILE*, %FILE** @stderr
  %c = call i32 @fputc(i32 65, %FILE* %s)
  ret void
}
