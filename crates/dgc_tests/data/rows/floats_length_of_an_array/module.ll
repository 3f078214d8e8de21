declare void @f([1.0 x i64])
