%Node = type { i64,
