define void @g) {
