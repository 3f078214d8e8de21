%T = type { i64* }
@g = global ptr null
