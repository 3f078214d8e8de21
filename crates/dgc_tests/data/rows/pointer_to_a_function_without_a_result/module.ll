declare void @each(void (i64)*)
