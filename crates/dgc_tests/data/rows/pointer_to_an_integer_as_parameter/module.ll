define dso_local void @f(i32* noundef %0) {
