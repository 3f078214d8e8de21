define double @f(double %a) {
entry:
  %v = fsub reassoc nnan afn nnan double %a, 1.0e+00, !dbg !3
  ret double %v
}
