declare ptr @dg_alloc(i32)
declare void @take(i64*)
