define dso_local i32 @f(i32 (i32)* noundef %0) {
