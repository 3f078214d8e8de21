$first = comdat any
$"a b" = comdat largest
declare !dbg !0 dso_local i32 @far(i32 noundef) local_unnamed_addr #1
declare !dbg !0 !annotation !1 extern_weak void @near(i1 zeroext) unnamed_addr #1 section "late" align 8
declare
  !dbg !0 signext i8 @near_by()
define linkonce_odr dso_local noundef zeroext i8 @first(i8 noundef zeroext %0) local_unnamed_addr #0 comdat align 2 !dbg !2 {
  ret i8 %0
}
define weak_odr hidden fastcc i64 @second(i64 noundef returned %0) unnamed_addr #0 section "boot" comdat($first) align 32 {
  ret i64 %0
}
define internal preserve_mostcc i64 @third(i64 noundef %0) #0 #1 partition "part1" comdat($"a b") gc "shadow-stack" !dbg !2 !prof !1 {
  %2 = tail call fastcc i64 @second(i64 noundef %0) #1, !dbg !3
  ret i64 %2
}
attributes #0 = { nounwind uwtable "frame-pointer"="all" }
attributes #1 = { "no-trapping-math"="true" }
!0 = !DISubprogram(name: "far", flags: DIFlagPrototyped, spFlags: DISPFlagOptimized)
!1 = !{!"function_entry_count", i64 1}
!2 = distinct !DISubprogram(name: "first", line: 3, unit: !4)
!3 = !DILocation(line: 4, column: 10, scope: !2)
!4 = distinct !DICompileUnit(language: DW_LANG_C99, file: !5, producer: "clang", isOptimized: true, emissionKind: FullDebug)
!5 = !DIFile(filename: "f.c", directory: "/")
