%A = type { i64 }
%B = type { i64, i64 }
define i64 @as(%A* %a) gc "shadow-stack" {
entry:
  %b = bitcast %A* %a to %B*
  ret i64 0
}
