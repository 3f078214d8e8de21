"""Kinds of which edits, shapes, modules to migrate, soaks and explained texts have many."""
from generate import HEAD
from growth_kinds import function, kind, lines, numbers, safepoints
from growth_traces import DEEP, trace
from replays import MODULE

LEAF = 'define void @leaf() gc "shadow-stack" {\n  ret void\n}\n'
LEAF_SECTION = "function @leaf none\nend\n"


@kind("edits of a section", command="recheck")
def section_edits(n):
    """Edits of the section of one function."""
    return HEAD + LEAF, "cert 1\n" + LEAF_SECTION, f"edit cert @leaf\n{LEAF_SECTION}.\n" * n


@kind("edits of code", command="recheck")
def code_edits(n):
    """Edits of the code of one function."""
    return HEAD + LEAF, "cert 1\n" + LEAF_SECTION, f"edit code @leaf\n{LEAF}.\n" * n


@kind("edits that are refused", command="recheck")
def refused_edits(n):
    """Edits of a function that is not there."""
    return HEAD + LEAF, "cert 1\n" + LEAF_SECTION, f"edit cert @nope\n{LEAF_SECTION}.\n" * n


@kind("values of an edit", command="recheck")
def edited_values(n):
    """Numbers in the code of one edit."""
    code = f'define void @leaf() gc "shadow-stack" {{\n{lines(n, lambda i: f"  %v{i} = add i64 1, {i}")}  ret void\n}}\n'
    return HEAD + LEAF, "cert 1\n" + LEAF_SECTION, f"edit code @leaf\n{code}.\n"


@kind("shapes of words")
def words_of_shapes(n):
    """Layouts with a reference each."""
    return lines(n, lambda i: f"%T{i} = type {{ ptr }}"), "cert 2\n" + lines(n, lambda i: f"layout T{i} 0 ref T{n - 1 - i}")


@kind("shapes of root slots")
def roots_of_shapes(n):
    """Root slots of one function."""
    body = lines(n, lambda i: f"  %s{i} = alloca ptr\n  call void @llvm.gcroot(ptr %s{i}, ptr null)")
    module = ("%Node = type { i64 }\ndeclare void @llvm.gcroot(ptr, ptr)\n"
              f'define void @f() gc "shadow-stack" {{\nentry:\n{body}  ret void\n}}\n')
    return module, "cert 2\n" + lines(n, lambda i: f"root @f %s{i} ref Node") + "function @f none\nend\n"


@kind("shapes in a file", command="replay, shapes")
def shapes_in_a_file(n):
    """Layouts with a reference each, whose shapes a replay reads."""
    module = lines(n, lambda i: f"%T{i} = type {{ ptr }}") + DEEP
    return module, trace("t 0 5\n", "", "start @down\n"), "shapes 1\n" + lines(n, lambda i: f"layout T{i} 0 ref T{n - 1 - i}")


@kind("migrated values", command="migrate")
def migrated_values(n):
    """Numbers of a module whose certificate is migrated."""
    return function(numbers(n) + "  ret void\n", parameters="i64 %k")


@kind("migrated claims", command="migrate")
def migrated_claims(n):
    """Claims of a certificate that is migrated."""
    body = numbers(n) + "  br label %next\nnext:\n  ret void\n"
    return function(body, "block %next\n" + lines(n, lambda i: f"%v{i} i64"), "i64 %k")


@kind("migrated structs", command="migrate")
def migrated_structs(n):
    """Structs that refer to each other, for each of which there is a line of shapes then."""
    return lines(n, lambda i: f"%T{i} = type {{ i64, %T{(i + 1) % n}* }}"), "cert 1\n"


@kind("phis of a loop, for which a certificate is made", command="make")
def made_loop(n):
    """Phis of a loop, whose values of the way back are defined in the loop: the certificate claims each at one block."""
    body = ("  br label %loop\nloop:\n" + lines(n, lambda i: f"  %p{i} = phi i64 [ {i}, %entry ], [ %q{i}, %loop ]")
            + lines(n, lambda i: f"  %q{i} = add i64 %p{i}, 1") + "  br label %loop\n")
    return function(body)[:1]


@kind("values over a branch, for which a certificate is made", command="make")
def made_branch(n):
    """Numbers that a later block uses: the certificate claims each there."""
    uses = lines(n, lambda i: f"  %u{i} = add i64 %v{i}, 1")
    return function(numbers(n) + f"  br label %next\nnext:\n{uses}  ret void\n", parameters="i64 %k")[:1]


@kind("seeds", 100000, "soak")
def seeds(n):
    """Seeds of a soak, of a hundred steps each."""
    return MODULE, trace("", "pool Node 10\n"), n


@kind("safepoints before an explained refusal", command="check, explained")
def stale_after_safepoints(n):
    """Safepoints over which a register is kept."""
    return function("  %x = load %Node*, %Node** @g\n" + safepoints(n) + "  store %Node* %x, %Node** @g\n  ret void\n", mark="may")


@kind("values before an explained refusal", command="check, explained")
def stale_after_values(n):
    """Numbers in front of a reference that is kept over a safepoint."""
    body = numbers(n) + "  %x = load %Node*, %Node** @g\n" + safepoints(1) + "  store %Node* %x, %Node** @g\n  ret void\n"
    return function(body, parameters="i64 %k", mark="may")


@kind("blocks before an explained refusal", 65000, command="check, explained")
def stale_after_blocks(n):
    """Blocks in a row, with a safepoint in the first one and a claim in each, and a use after them that is refused."""
    body = "  %x = load %Node*, %Node** @g\n" + safepoints(1) + "  br label %b0\n" + lines(n, lambda i: f"b{i}:\n  br label %b{i + 1}")
    section = lines(n + 1, lambda i: f"block %b{i}\n%x ref Node stale")
    return function(f"{body}b{n}:\n  store %Node* %x, %Node** @g\n  ret void\n", section, mark="may")


def joined(n, body, section):
    """Blocks that a switch leads to, each with a line of the certificate, and one to which all of them lead."""
    cases = "".join(f"    i64 {i}, label %b{i}\n" for i in range(1, n))
    return (f"  switch i64 %k, label %b0 [\n{cases}  ]\n" + lines(n, lambda i: f"b{i}:\n  br label %join") + f"join:\n{body}",
            lines(n, lambda i: f"block %b{i}\n{section}") + f"block %join\n{section}\n")


@kind("predecessors before an explained refusal", 65000, command="check, explained")
def stale_after_predecessors(n):
    """Blocks that all lead to a use that is refused, after a safepoint in the block before them."""
    body, section = joined(n, "  store %Node* %x, %Node** @g\n  ret void\n", "%x ref Node stale")
    return function("  %x = load %Node*, %Node** @g\n" + safepoints(1) + body, section, "i64 %k", mark="may")


@kind("predecessors of a block that lacks a claim", 65000, command="check, explained")
def lacking_after_predecessors(n):
    """Blocks that list a reference, and all lead to a block that does not."""
    body, section = joined(n, "  store %Node* %x, %Node** @g\n  ret void\n", "%x ref Node nonnull")
    section = "param %x nonnull\n" + section.removesuffix("%x ref Node nonnull\n")
    return function(body, section, "%Node* %x, i64 %k")


@kind("entries of an explained phi", 65000, command="check, explained")
def explained_entries(n):
    """Blocks that all lead to a phi, which has an entry of one more."""
    entries = "".join(f"[ {i}, %b{i} ], " for i in range(n))
    body, section = joined(n, f"  %p = phi i64 {entries}[ 0, %other ]\n  ret void\nother:\n  ret void\n", "%k i64")
    return function(body, section.removesuffix("%k i64\n") + "block %other\n", "i64 %k")


@kind("names of a cell before an explained refusal", 65000, command="check, explained")
def written_without_barrier(n):
    """Names of one cell in a row, and a plain store into a field of it, by the last one."""
    names = "  %v0 = bitcast %Node* %x to %Node*\n" + lines(n - 1, lambda i: f"  %v{i + 1} = bitcast %Node* %v{i} to %Node*")
    field = f"  %p = getelementptr %Node, %Node* %v{n - 1}, i32 0, i32 1\n  store %Node* null, %Node** %p\n  ret void\n"
    return function(names + field, "param %x nonnull\n", "%Node* %x", mark="may")


@kind("claims of an explained edge", command="check, explained")
def refused_claims(n):
    """Claims at a block, of which the last one is not known there."""
    body = numbers(n) + "  br label %next\nnext:\n  ret void\n"
    return function(body, "block %next\n" + lines(n, lambda i: f"%v{i} i64") + "%k i64 below 3\n", "i64 %k")


@kind("names beside a misspelt one", command="check, not read")
def misspelt(n):
    """Numbers, and a name that is none of them."""
    return function(numbers(n, "value") + "  %last = add i64 %valve1, 1\n  ret void\n", parameters="i64 %k")


@kind("bytes of a misspelt name", 1000000, command="check, not read")
def misspelt_long(n):
    """Two long names that differ in the middle, and in their ends."""
    return function(f"  %{'ab' * (n // 2)}x = add i64 1, 1\n  %l = add i64 %{'ba' * (n // 2)}y, 1\n  ret void\n")


@kind("blocks that are refused, explained", 65000, command="check, all")
def refused_blocks(n):
    """Blocks that each load from null."""
    body = "  br label %b0\n" + lines(n, lambda i: f"b{i}:\n  %v{i} = load i64, i64* null\n  br label %b{i + 1}") + f"b{n}:\n  ret void\n"
    return function(body, lines(n + 1, lambda i: f"block %b{i}"))


@kind("functions that are refused, each explained", 65000, command="check, each explained")
@kind("functions that are refused, explained", 65000, command="check, all")
def refused_functions(n):
    """Functions that each load from null."""
    module = HEAD + lines(n, lambda i: f"define void @f{i}() {{\nentry:\n  %v = load i64, i64* null\n  ret void\n}}")
    return module, "cert 1\n" + lines(n, lambda i: f"function @f{i} none\nend")


@kind("refused edits, explained", command="recheck, explained")
def explained_edits(n):
    """Edits of a function that is not there, in a module that is refused."""
    code = 'define void @leaf() gc "shadow-stack" {\n  %v = load i64, i64* null\n  ret void\n}\n'
    return HEAD + code, "cert 1\n" + LEAF_SECTION, f"edit cert @nope\n{LEAF_SECTION}.\n" * n
