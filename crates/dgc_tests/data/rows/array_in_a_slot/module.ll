define i32 @f(i32 noundef %0) {
  %2 = alloca [4 x i32], align 16
