%Box = type { i64, [4 x i64] }
define i64 @sum(%Box* %0) gc "shadow-stack" {
  br label %2

2:
  %3 = phi i64 [ 0, %1 ], [ %8, %2 ]
  %4 = phi i64 [ 0, %1 ], [ %7, %2 ]
  %5 = getelementptr inbounds %Box, %Box* %0, i64 0, i32 1, i64 %3
  %6 = load i64, i64* %5, align 8
  %7 = add nsw i64 %6, %4
  %8 = add nuw nsw i64 %3, 1
  %9 = icmp eq i64 %8, 4
  br i1 %9, label %10, label %2

10:
  ret i64 %7
}
