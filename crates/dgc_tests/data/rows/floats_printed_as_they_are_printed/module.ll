%T = type { double, [2 x float], ptr }
@g = global double 0x3FF4000000000000
@h = constant float 0x3FB99999A0000000
@z = global float 0x0000000000000000
declare float @llvm.fma.f32(float, float, float)
declare double @sin(double)
define double @f(ptr %t, float %x, double %y, i32 %n) gc "shadow-stack" {
entry:
  %s = alloca float
  store float 0x3FF8000000000000, ptr %s
  %p = getelementptr %T, ptr %t, i32 0, i32 0
  %a = load double, ptr %p
  %b = fadd double %a, 0xBFE0000000000000
  %c = fsub double %b, %y
  %d = fmul double %c, 0x44B52D02C7E14AF6
  %e = fdiv double %d, 0x7FF0000000000000
  %g = frem double %e, 0x0000000000000000
  %h = fneg double %g
  %i = fcmp une double %h, 0x0000000000000000
  %j = fcmp true float %x, 0xB6A0000000000000
  %k = fptrunc double %h to float
  %l = fpext float %k to double
  %m = fptosi double %l to i17
  %o = fptoui float %k to i1
  %q = sitofp i32 %n to float
  %r = uitofp i32 4294967295 to double
  %u = call float @llvm.fma.f32(float 0x3FF0000000000000, float %q, float 0xC000000000000000)
  %v = call double @sin(double %r)
  %w = select i1 %i, double %v, double 0x4000000000000000
  %aa = bitcast double %w to i64
  %ab = bitcast float %u to i32
  %ac = bitcast double %w to double
  store double %ac, ptr %p
  br i1 %j, label %yes, label %no
yes:
  br label %no
no:
  %ad = phi double [ 0x3FF0000000000000, %entry ], [ %ac, %yes ]
  ret double %ad
}
