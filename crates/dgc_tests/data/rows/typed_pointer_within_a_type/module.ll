%T = type { ptr }
declare [2 x { i64, i8** }]* @f()
