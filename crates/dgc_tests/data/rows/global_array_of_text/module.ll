@.str = private unnamed_addr constant [3 x i8] c"hi\00", align 1
