define i32 @f(i32 noundef %0) {
  %2 = shl i32 %0, 3
