; ModuleID = 'p.c'
source_filename = "p.c"
target datalayout = "e-m:e-i64:64-n8:16:32:64-S128"
target triple = "x86_64-pc-linux-gnu"

%struct.P = type { i32, %struct.P* }

@head = internal unnamed_addr global %struct.P* null, align 8
@flag = dso_local local_unnamed_addr constant i8 -1, align 1, !dbg !0

; Function Attrs: nounwind uwtable
define internal fastcc zeroext i1 @f(%struct.P* nocapture noundef readonly dereferenceable(16) %0, i8 signext %1) unnamed_addr #0 section ".text.hot" align 16 !dbg !1 {
  %3 = load volatile i8, i8* @flag, align 1, !tbaa !2, !range !3
  %4 = getelementptr inbounds %struct.P, %struct.P* %0, i64 0, i32 0
  %5 = load i32, i32* %4, align 4, !tbaa !4
  %6 = add nuw nsw i32 %5, -1
  %7 = tail call signext i8 @g(%struct.P* noundef nonnull align 8 %0, i32 noundef 3) #1, !srcloc !5
  switch i32 %6, label %9 [
    i32 0, label %8
    i32 -7, label %8
  ], !prof !6

8:                                                ; preds = %2, %2
  br label %9, !llvm.loop !7

9:                                                ; preds = %8, %2
  %10 = phi i1 [ true, %8 ], [ false, %2 ]
  ret i1 %10
}

declare signext i8 @g(%struct.P* noundef, i32 noundef) local_unnamed_addr #1

attributes #0 = { nounwind uwtable "frame-pointer"="none" "target-features"="+cx8,+mmx" }
attributes #1 = { nounwind }

!llvm.module.flags = !{!0}
!0 = !{i32 1, !"wchar_size", i32 4}
!7 = distinct !{!7, !8}
!8 = !DILocation(line: 3, column: 1, scope: !9, flags: DIFlagA | DIFlagB)
