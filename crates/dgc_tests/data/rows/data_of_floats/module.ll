@d = constant [3 x double] [double 1.5e+00, double -1.0, double 0x7FF0000000000000]
declare void @take(ptr)
define void @f() gc "shadow-stack" {
entry:
  call void @take(ptr @d)
  ret void
}
