%E = type { i64 }
%N = type { ptr, ptr }
@a = internal global i8 -1, align 1
@b = constant i1 true
@"c d" = dso_local global i64 undef
@r = global ptr null
define i8 @f() {
entry:
  %v = load i8, ptr @a
  ret i8 %v
}
