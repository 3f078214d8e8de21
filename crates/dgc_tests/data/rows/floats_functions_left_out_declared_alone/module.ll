declare double @llvm.powi.f64.i32(double, i32)
declare float @llvm.vector.reduce.fadd.v4f32(float, <4 x float>)
declare i1 @llvm.is.fpclass.f16(half, i32)
define double @f() {
entry:
  ret double 1.0
}
