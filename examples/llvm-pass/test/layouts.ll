; A call of dg_alloc means a layout by its place in !dgc.layouts, which has names, or a constant of the struct. Without such a constant LLVM
; prints no %A, and %C before %B.
%A = type { i64 }
%B = type { i64, ptr }
%C = type { ptr, i64 }
@last = global ptr null
declare ptr @dg_alloc(i32)
declare void @dg_safepoint()
declare void @llvm.gcwrite(ptr, ptr, ptr)
define void @pair() gc "shadow-stack" {
entry:
  call void @dg_safepoint()
  %c = call ptr @dg_alloc(i32 2)
  %no_c = icmp eq ptr %c, null
  br i1 %no_c, label %out, label %one
one:
  %p = getelementptr %C, ptr %c, i64 0, i32 1
  store i64 1, ptr %p
  %b = call ptr @dg_alloc(i32 1)
  %no_b = icmp eq ptr %b, null
  br i1 %no_b, label %out, label %two
two:
  %q = getelementptr %B, ptr %b, i64 0, i32 1
  store ptr %c, ptr %q
  call void @llvm.gcwrite(ptr %b, ptr null, ptr @last)
  br label %out
out:
  ret void
}
!dgc.layouts = !{!0}
!0 = !{%A zeroinitializer, !"B", !"C"}
!dgc.cert = !{!1}
!1 = !{!"cert 2", !"layout B 1 ref C", !"layout C 0 ref C", !"global @last ref B", !"function @pair may", !"block %one", !"%c ref C nonnull fresh", !"block %two", !"%c ref C nonnull fresh", !"%b ref B nonnull fresh", !"block %out", !"end"}
