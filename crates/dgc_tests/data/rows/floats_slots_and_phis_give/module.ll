define float @f(i1 %c, float %a) {
entry:
  %s = alloca float
  %u = load float, float* %s
  store float %a, float* %s
  br i1 %c, label %yes, label %join
yes:
  %v = load float, float* %s
  br label %join
join:
  %w = phi float [ %v, %yes ], [ -1.25e+00, %entry ]
  ret float %w
}
