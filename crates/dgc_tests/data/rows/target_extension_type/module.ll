define void @f() {
  %v = alloca target("aarch64.svcount")
  ret void
}
