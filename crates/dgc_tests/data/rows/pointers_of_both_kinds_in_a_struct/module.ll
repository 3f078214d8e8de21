%T = type { ptr, i8* }
