%Node = type { i64, ptr }
@n = global i64 0
