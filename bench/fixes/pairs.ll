; kept: %pair.again %pair
; undominated: %pair.again %late
%Pair = type { ptr, ptr }
@pair = global ptr null
declare ptr @dg_alloc(i32)
declare void @dg_safepoint()
declare void @llvm.gcroot(ptr, ptr)
declare void @llvm.gcwrite(ptr, ptr, ptr)
define void @run() gc "shadow-stack" {
entry:
  %s = alloca ptr
  call void @llvm.gcroot(ptr %s, ptr null)
  br label %again
again:
  call void @dg_safepoint()
  %held = load ptr, ptr @pair
  %pair = call ptr @dg_alloc(i32 0)
  %none = icmp eq ptr %pair, null
  br i1 %none, label %drop, label %fill
drop:
  %late = load ptr, ptr @pair
  call void @llvm.gcwrite(ptr null, ptr null, ptr @pair)
  br label %again
fill:
  %a = getelementptr %Pair, ptr %pair, i32 0, i32 0
  store ptr %held, ptr %a
  store ptr %pair, ptr %s
  call void @dg_safepoint()
  %pair.again = load ptr, ptr %s
  %gone = icmp eq ptr %pair.again, null
  br i1 %gone, label %again, label %close
close:
  %b = getelementptr %Pair, ptr %pair.again, i32 0, i32 1
  call void @llvm.gcwrite(ptr %pair.again, ptr %pair.again, ptr %b)
  call void @llvm.gcwrite(ptr %pair.again, ptr null, ptr @pair)
  br label %again
}
