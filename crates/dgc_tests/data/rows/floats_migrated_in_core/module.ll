%T = type { double, [2 x float], %T* }
@g = global double 1.25e+00
@h = constant float 0x3FB99999A0000000
@z = global float zeroinitializer
declare float @llvm.fma.f32(float, float, float)
declare double @sin(double)
define double @f(%T* %t, float noundef %x, double %y, i32 %n) gc "shadow-stack" {
entry:
  %s = alloca float, align 4
  store float 1.5, float* %s, align 4
  %p = getelementptr inbounds %T, %T* %t, i32 0, i32 0
  %a = load double, double* %p, align 8
  %b = fadd fast double %a, -5.0e-01
  %c = fsub nnan double %b, %y
  %d = fmul double %c, 1.0e+23
  %e = fdiv arcp double %d, 0x7FF0000000000000
  %g = frem double %e, 0.0
  %h = fneg nsz double %g
  %i = fcmp fast une double %h, undef
  %j = fcmp true float %x, 0xB6A0000000000000
  %k = fptrunc double %h to float
  %l = fpext float %k to double
  %m = fptosi double %l to i17
  %o = fptoui float %k to i1
  %q = sitofp i32 %n to float
  %r = uitofp nneg i32 -1 to double
  %u = call nnan float @llvm.fma.f32(float noundef 1.0e+00, float %q, float -2.0)
  %v = tail call double @sin(double noundef %r)
  %w = select i1 %i, double %v, double 2.0
  %aa = bitcast double %w to i64
  %ab = bitcast float %u to i32
  %ac = freeze double %w
  store double %ac, double* %p, align 8
  br i1 %j, label %yes, label %no
yes:
  br label %no
no:
  %ad = phi double [ 1.0, %entry ], [ %ac, %yes ]
  ret double %ad
}
