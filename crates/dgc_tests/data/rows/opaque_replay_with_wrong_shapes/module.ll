%T = type { ptr, %T }
@g = global ptr null
