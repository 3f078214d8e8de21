define i32 @f(i32 %a) {
entry:
  %s = alloca i32, align 4
  %t = alloca ptr
  %c = bitcast ptr %s to ptr
  store i32 %a, ptr %c
  %v = load i32, ptr %s
  ret i32 %v
}
