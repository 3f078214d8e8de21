@g = global ptr null
@g = global ptr null
