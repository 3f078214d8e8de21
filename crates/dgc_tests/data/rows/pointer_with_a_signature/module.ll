@g = global ptr null
define void @f(ptr %n) {
  store ptr ptrauth (ptr @g, i32 0), ptr @g
  ret void
}
