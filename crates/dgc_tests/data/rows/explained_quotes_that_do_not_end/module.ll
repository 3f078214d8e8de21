source_filename = "module
define void @f() {
  ret void
}
