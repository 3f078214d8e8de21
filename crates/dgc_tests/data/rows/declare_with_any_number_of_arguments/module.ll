declare i32 @printf(i8* noundef, ...) #1
