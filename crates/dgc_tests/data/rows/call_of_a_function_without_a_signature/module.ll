define i32 @f(i32 noundef %0) {
  %2 = call i32 (...) @g()
