%Node = type { i64, [2 x ptr] }
@g = global ptr null, align 8, code_model "large", no_sanitize_address
declare nonnull noundef ptr @h(ptr nofree noundef readonly captures(none) initializes((0, 8), (16, 24)), i64 noundef range(i64 0, 2)) local_unnamed_addr #0
define range(i64 0, 8) i64 @f(ptr noundef nonnull writable align 8 captures(address, ret: read_provenance) dead_on_return dereferenceable(24) %n, i64 range(i64 -1, 4) %i) nocallback nofree norecurse nosync nounwind nocreateundeforpoison willreturn memory(argmem: read, inaccessiblemem: none) {
entry:
  %v = call noundef range(i64 0, 8) i64 @f(ptr noundef nonnull captures(none) %n, i64 noundef range(i64 -1, 4) 2) memory(argmem: read)
  ret i64 %v
}
attributes #0 = { nocallback nofree nosync nounwind willreturn memory(argmem: readwrite, errnomem: none) captures(none) "probe-stack"="inline-asm" }
