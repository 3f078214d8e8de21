%T = type { ptr }
declare i8** @f()
