@g = global i64 { i64 1 }
