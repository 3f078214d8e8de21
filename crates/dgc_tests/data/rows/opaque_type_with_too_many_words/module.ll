%T = type { [65 x ptr] }
