%T = type { ptr }
@g = global i64* null
