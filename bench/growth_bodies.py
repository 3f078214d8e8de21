"""Kinds of which a function has many."""
from generate import HEAD
from growth_kinds import function, kind, lines, numbers, references, roots, safepoints

K = "i64 %k"


@kind("values")
def values(n):
    """Numbers."""
    return function(numbers(n) + "  ret void\n", parameters=K)


def short_name(number):
    """A name of at most four bytes."""
    digits = "abcdefghijklmnopqrstuvwxyzABCDEFGHIJKLMNOPQRSTUVWXYZ$_"
    name = ""
    while True:
        name = digits[number % len(digits)] + name
        number //= len(digits)
        if not number:
            return name


@kind("values with short names", 1000000)
def short_values(n):
    """Numbers, of which a text may have a million."""
    return function(lines(n, lambda i: f"%{short_name(i)}=or i1 0,0") + "  ret void\n")


@kind("blocks", 65000)
def blocks(n):
    """Blocks in a row, each with one line."""
    body = "  br label %b0\n" + lines(n, lambda i: f"b{i}:\n  br label %b{i + 1}") + f"b{n}:\n  ret void\n"
    return function(body, lines(n + 1, lambda i: f"block %b{i}\n%k i64"), K)


@kind("predecessors", 65533)
def predecessors(n):
    """Blocks that all lead to one."""
    cases = " ".join(f"i64 {i}, label %b{i}" for i in range(n))
    body = f"  switch i64 %k, label %out [ {cases} ]\n" + lines(n, lambda i: f"b{i}:\n  br label %out") + "out:\n  ret void\n"
    return function(body, lines(n, lambda i: f"block %b{i}\n%k i64") + "block %out\n%k i64\n", K)


@kind("predecessors of a phi", 65000)
def entries(n):
    """Entries of one phi."""
    cases = " ".join(f"i64 {i}, label %b{i}" for i in range(1, n))
    come = ", ".join(f"[ {i}, %b{i} ]" for i in range(n))
    body = (f"  switch i64 %k, label %b0 [ {cases} ]\n" + lines(n, lambda i: f"b{i}:\n  br label %out")
            + f"out:\n  %p = phi i64 {come}\n  ret void\n")
    return function(body, lines(n, lambda i: f"block %b{i}") + "block %out\n%p i64\n", K)


@kind("phis")
def phis(n):
    """Phis of one loop."""
    body = ("  br label %loop\nloop:\n" + lines(n, lambda i: f"  %p{i} = phi i64 [ {i}, %entry ], [ %p{i}, %loop ]")
            + "  br label %loop\n")
    return function(body, "block %loop\n" + lines(n, lambda i: f"%p{i} i64"))


@kind("phis of references")
def reference_phis(n):
    """Phis of references of one loop."""
    body = ("  br label %loop\nloop:\n"
            + lines(n, lambda i: f"  %p{i} = phi %Node* [ null, %entry ], [ %p{(i + 1) % n}, %loop ]") + "  br label %loop\n")
    return function(body, "block %loop\n" + lines(n, lambda i: f"%p{i} ref Node"))


@kind("slots of numbers")
def slots(n):
    """Slots of numbers."""
    return function(lines(n, lambda i: f"  %s{i} = alloca i64") + "  ret void\n")


@kind("root slots")
def root_slots(n):
    """Root slots."""
    return function(roots(n) + "  ret void\n")


@kind("aliases of a slot")
def aliases(n):
    """Bitcasts of one slot."""
    return function("  %s = alloca i64\n" + lines(n, lambda i: f"  %r{i} = bitcast i64* %s to i64*") + "  ret void\n")


@kind("aliases of aliases of a slot")
def alias_chain(n):
    """Bitcasts of a slot, each of the one before."""
    return function("  %r0 = alloca i64\n" + lines(n, lambda i: f"  %r{i + 1} = bitcast i64* %r{i} to i64*") + "  ret void\n")


@kind("stores to one slot")
def stores(n):
    """Stores of numbers to one slot."""
    return function("  %s = alloca i64\n" + "  store i64 %k, i64* %s\n" * n + "  ret void\n", parameters=K)


@kind("stores of references to one slot")
def reference_stores(n):
    """Stores of different references to one root slot."""
    body = roots(1) + lines(n, lambda i: f"  %x{i} = load %Node*, %Node** @g\n  store %Node* %x{i}, %Node** %s0")
    return function(body + "  ret void\n")


@kind("loads from one slot")
def loads(n):
    """Loads from one root slot."""
    return function(roots(1) + lines(n, lambda i: f"  %x{i} = load %Node*, %Node** %s0") + "  ret void\n")


def bitcasts(n, more=""):
    """Bitcasts of one reference, each listed as the same at the next block."""
    body = lines(n, lambda i: f"  %y{i} = bitcast %Node* %x to %Node*") + "  br label %next\nnext:\n" + more + "  ret void\n"
    return body, "block %next\n%x ref Node\n" + lines(n, lambda i: f"%y{i} ref Node same %x")


@kind("one class")
def one_class(n):
    """References that are all the same."""
    return function(*bitcasts(n), parameters="%Node* %x")


@kind("one class, listed in a row")
def row_class(n):
    """References that are all the same, each listed as the same as the one before."""
    body = ("  %y0 = bitcast %Node* %x to %Node*\n" + lines(n, lambda i: f"  %y{i + 1} = bitcast %Node* %y{i} to %Node*")
            + "  br label %next\nnext:\n  ret void\n")
    lines_of = "block %next\n%y0 ref Node\n" + lines(n, lambda i: f"%y{i + 1} ref Node same %y{i}")
    return function(body, lines_of, "%Node* %x")


@kind("one class, listed backwards in a row")
def back_class(n):
    """References that are all the same, each listed as the same as the next one."""
    body = ("  %y0 = bitcast %Node* %x to %Node*\n" + lines(n, lambda i: f"  %y{i + 1} = bitcast %Node* %y{i} to %Node*")
            + "  br label %next\nnext:\n  ret void\n")
    lines_of = "block %next\n" + lines(n, lambda i: f"%y{i} ref Node same %y{i + 1}") + f"%y{n} ref Node\n"
    return function(body, lines_of, "%Node* %x")


@kind("one class of a fresh reference")
def fresh_class(n):
    """Bitcasts of a cell that was claimed, each listed as fresh and the same at the next block."""
    body = ("  %a = call i8* @dg_alloc(i32 0)\n  %x = bitcast i8* %a to %Node*\n"
            + lines(n, lambda i: f"  %y{i} = bitcast %Node* %x to %Node*") + "  br label %next\nnext:\n  ret void\n")
    return function(body, "block %next\n%x ref Node fresh\n" + lines(n, lambda i: f"%y{i} ref Node fresh same %x"))


@kind("classes of two")
def classes(n):
    """Pairs of references that are the same."""
    body = (references(n) + lines(n, lambda i: f"  %y{i} = bitcast %Node* %x{i} to %Node*")
            + "  br label %next\nnext:\n  ret void\n")
    return function(body, "block %next\n" + lines(n, lambda i: f"%x{i} ref Node\n%y{i} ref Node same %x{i}"))


@kind("addresses of one reference")
def addresses(n):
    """Addresses of words of one cell, listed at the next block."""
    body = (lines(n, lambda i: f"  %a{i} = getelementptr %Node, %Node* %x, i32 0, i32 0")
            + "  br label %next\nnext:\n  ret void\n")
    return function(body, "param %x nonnull\nblock %next\n%x ref Node\n" + lines(n, lambda i: f"%a{i} addr %x 0"), "%Node* %x")


@kind("addresses of many references")
def many_addresses(n):
    """Addresses of words of a cell each, listed at the next block."""
    body = (references(n) + lines(n, lambda i: f"  %a{i} = getelementptr %Node, %Node* %x{i}, i32 0, i32 0")
            + "  br label %next\nnext:\n  ret void\n")
    return function(body, "block %next\n" + lines(n, lambda i: f"%x{i} ref Node\n%a{i} addr %x{i} 0"))


@kind("bounds of parameters")
def bounds(n):
    """Bounds of parameters, listed at the next block."""
    listed = ", ".join(f"i64 %p{i}" for i in range(n))
    section = lines(n, lambda i: f"param %p{i} below {i + 1}") + "block %next\n" + lines(n, lambda i: f"%p{i} i64 below {i + 2}")
    return function("  br label %next\nnext:\n  ret void\n", section, listed)


@kind("bounds by branches", 30000)
def branches(n):
    """Tests of a number, each with a branch."""
    body = "  br label %b0\n" + lines(n, lambda i: f"b{i}:\n  %c{i} = icmp ult i64 %k, {2 * n - i}\n  br i1 %c{i}, label %b{i + 1}, label %out")
    section = "block %out\n%k i64\nblock %b0\n%k i64\n" + lines(n, lambda i: f"block %b{i + 1}\n%k i64 below {2 * n - i}")
    return function(body + f"b{n}:\n  ret void\nout:\n  ret void\n", section, K)


@kind("tests of one number")
def tests(n):
    """Comparisons of one number with constants."""
    return function(lines(n, lambda i: f"  %c{i} = icmp ult i64 %k, {i + 1}") + "  ret void\n", parameters=K)


@kind("tests of one reference")
def null_tests(n):
    """Comparisons of one reference with null."""
    return function(lines(n, lambda i: f"  %c{i} = icmp eq %Node* %x, null") + "  ret void\n", parameters="%Node* %x")


@kind("switch cases")
def cases(n):
    """Cases that lead to one block."""
    listed = " ".join(f"i64 {i}, label %out" for i in range(n))
    return function(f"  switch i64 %k, label %out [ {listed} ]\nout:\n  ret void\n", "block %out\n%k i64\n", K)


@kind("arguments")
def arguments(n):
    """Arguments of one call."""
    listed = ", ".join(f"%Node* %p{i}" for i in range(n))
    given = ", ".join("%Node* %x" for _ in range(n))
    promised = lines(n, lambda i: f"param %p{i} nonnull")
    module = (HEAD + f'define void @g1({listed}) gc "shadow-stack" {{\n  ret void\n}}\n'
              f'define void @f(%Node* %x) gc "shadow-stack" {{\n  call void @g1({given})\n  ret void\n}}\n')
    return module, f"cert 1\nfunction @g1 none\n{promised}end\nfunction @f none\nparam %x nonnull\nend\n"


@kind("calls")
def calls(n):
    """Calls that return a reference."""
    module = (HEAD + 'define %Node* @g1(%Node* %p) gc "shadow-stack" {\n  ret %Node* %p\n}\n'
              'define void @f() gc "shadow-stack" {\n' + lines(n, lambda i: f"  %x{i} = call %Node* @g1(%Node* null)") + "  ret void\n}\n")
    return module, "cert 1\nfunction @g1 none\nend\nfunction @f none\nend\n"


@kind("safepoints")
def only_safepoints(n):
    """Safepoints, where nothing is known."""
    return function(safepoints(n) + "  ret void\n", mark="may")


@kind("claims of a certificate")
def certificate_lines(n):
    """Lines of one block."""
    body = numbers(n) + "  br label %next\nnext:\n  ret void\n"
    return function(body, "block %next\n" + lines(n, lambda i: f"%v{i} i64"), K)


@kind("cells that are claimed")
def claims(n):
    """Calls of dg_alloc, each listed as fresh at the next block."""
    body = (lines(n, lambda i: f"  %a{i} = call i8* @dg_alloc(i32 0)\n  %x{i} = bitcast i8* %a{i} to %Node*")
            + "  br label %next\nnext:\n  ret void\n")
    return function(body, "block %next\n" + lines(n, lambda i: f"%x{i} ref Node fresh"))


@kind("slots that hold a reference each")
def holding_slots(n):
    """Root slots, each with a reference of its own, listed at the next block."""
    body = (roots(n) + lines(n, lambda i: f"  %x{i} = load %Node*, %Node** @g\n  store %Node* %x{i}, %Node** %s{i}")
            + "  br label %next\nnext:\n  ret void\n")
    return function(body, "block %next\n" + lines(n, lambda i: f"%x{i} ref Node\nslot %s{i} holds %x{i}"))


@kind("slots that hold one reference")
def slots_of_one(n):
    """Root slots that hold one reference, listed at the next block."""
    body = (roots(n) + lines(n, lambda i: f"  store %Node* %x, %Node** %s{i}") + "  br label %next\nnext:\n  ret void\n")
    return function(body, "block %next\n%x ref Node\n" + lines(n, lambda i: f"slot %s{i} holds %x"), "%Node* %x")
