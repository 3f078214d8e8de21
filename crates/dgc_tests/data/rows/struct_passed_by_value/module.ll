%struct.S = type { i64 }
define void @f(%struct.S* noundef byval(%struct.S) align 8 %0) {
