%Node = type { i64, %Node* }
define i64 @sum(%Node* %0) gc "shadow-stack" {
  %2 = icmp eq %Node* %0, null
  br i1 %2, label %12, label %3

3:
  %4 = phi i64 [ %8, %3 ], [ 0, %1 ]
  %5 = phi %Node* [ %10, %3 ], [ %0, %1 ]
  %6 = getelementptr inbounds %Node, %Node* %5, i64 0, i32 0
  %7 = load i64, i64* %6, align 8
  %8 = add nsw i64 %7, %4
  %9 = getelementptr inbounds %Node, %Node* %5, i64 0, i32 1
  %10 = load %Node*, %Node** %9, align 8
  %11 = icmp eq %Node* %10, null
  br i1 %11, label %12, label %3

12:
  %13 = phi i64 [ 0, %1 ], [ %8, %3 ]
  ret i64 %13
}
