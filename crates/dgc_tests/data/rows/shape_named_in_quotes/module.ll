%"a b" = type { ptr }
@"c d" = global ptr null
