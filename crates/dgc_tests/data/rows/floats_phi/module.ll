define float @f(i1 %c, float %a) {
entry:
  br i1 %c, label %yes, label %join
yes:
  %s = fadd float %a, 1.0
  br label %join
join:
  %v = phi float [ %s, %yes ], [ -1.25e+00, %entry ]
  ret float %v
}
