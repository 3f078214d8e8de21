declare void @f(ptr*)
