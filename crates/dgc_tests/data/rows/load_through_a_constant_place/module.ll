define i32 @f(i32 noundef %0) {
  %2 = load i32, i32* getelementptr inbounds (%struct.S, %struct.S* @s, i64 0, i32 1), align 4
