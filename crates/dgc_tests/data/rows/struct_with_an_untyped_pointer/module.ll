%T = type { i8* }
