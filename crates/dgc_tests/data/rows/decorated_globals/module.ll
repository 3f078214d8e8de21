$one = comdat any
$"a b" = comdat nodeduplicate
%Node = type { i64, %Node* }
@one = linkonce_odr dso_local local_unnamed_addr global i32 3, comdat, align 4
@two = weak_odr hidden unnamed_addr global i64 -1, comdat($one), align 8
@three = internal externally_initialized constant i8 7, comdat($"a b"), !dbg !0
@four = dso_local global %Node* null, section "data_of_mine", partition "part1", comdat($one), align 8, !dbg !0, !type !1
@five = dso_local global i1 true, align 1 #0
@six = private global i32 undef, section ".bss" #0 #1
  #2
@seven = global i64 zeroinitializer
define i64 @sum() {
entry:
  %a = load i64, i64* @two, align 8
  %b = load i64, i64* @seven
  %c = add i64 %a, %b
  ret i64 %c
}
attributes #0 = { "bss-section"="mine" "data-section"="mine" }
attributes #1 = { "rodata-section"="mine" }
attributes #2 = { "relro-section"="mine" }
!0 = !DIGlobalVariableExpression(var: !1, expr: !DIExpression())
!1 = !{i64 0}
