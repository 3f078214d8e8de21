%T = type { i64 }
@g = global %T* null
define dso_local i64 @"a b"(i64 %0) #0 {
  %2 = add nsw i64 %0, -1, !dbg !7 ; x
  ret i64 %2
}
