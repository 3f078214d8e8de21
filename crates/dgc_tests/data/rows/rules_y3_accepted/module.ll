%Box = type { i64, %Cell* }
%Cell = type { i64 }
define void @idle() {
entry:
  ret void
}
