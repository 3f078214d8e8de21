%T = type { ptr, %T }
