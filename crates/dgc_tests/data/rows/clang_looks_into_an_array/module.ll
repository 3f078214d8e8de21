%Box = type { i64, [4 x i64] }
define i64 @look(%Box* %0, i64 %1) gc "shadow-stack" {
  %3 = icmp ult i64 %1, 4
  br i1 %3, label %4, label %7

4:
  %5 = getelementptr inbounds %Box, %Box* %0, i64 0, i32 1, i64 %1
  %6 = load i64, i64* %5, align 8
  br label %7

7:
  %8 = phi i64 [ %6, %4 ], [ 0, %2 ]
  ret i64 %8
}
