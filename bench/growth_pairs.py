"""Pairs of kinds, n of each: a step of the one may walk over a list of the other."""
from generate import HEAD
from growth_kinds import function, kind, lines, numbers, references, roots, safepoints

K = "i64 %k"
RETURNS = "  ret void\n"


@kind("references and safepoints")
def references_safepoints(n):
    """Safepoints in a row after references."""
    return function(references(n) + safepoints(n) + RETURNS, mark="may")


@kind("references between safepoints")
def references_between(n):
    """A safepoint after each reference."""
    body = lines(n, lambda i: f"  %x{i} = load %Node*, %Node** @g\n  call void @dg_safepoint()")
    return function(body + RETURNS, mark="may")


@kind("numbers and safepoints")
def numbers_safepoints(n):
    """Safepoints in a row after numbers."""
    return function(numbers(n) + safepoints(n) + RETURNS, parameters=K, mark="may")


@kind("addresses and safepoints")
def addresses_safepoints(n):
    """Safepoints in a row after addresses of one cell."""
    body = lines(n, lambda i: f"  %a{i} = getelementptr %Node, %Node* %x, i32 0, i32 0") + safepoints(n) + RETURNS
    return function(body, "param %x nonnull\n", "%Node* %x", "may")


@kind("root slots and safepoints")
def slots_safepoints(n):
    """Safepoints in a row after root slots."""
    return function(roots(n) + safepoints(n) + RETURNS, mark="may")


@kind("slots that hold, and safepoints")
def holding_safepoints(n):
    """Safepoints in a row after stores to root slots, each followed by a load."""
    body = roots(n) + references(1) + lines(n, lambda i: f"  store %Node* %x0, %Node** %s{i}")
    body += lines(n, lambda i: f"  call void @dg_safepoint()\n  %y{i} = load %Node*, %Node** %s{i}")
    return function(body + RETURNS, mark="may")


def called(mark, body):
    """A function whose instructions call @g1, which is marked so."""
    module = (HEAD + f'define void @g1(%Node* %p) gc "shadow-stack" {{\n  ret void\n}}\n'
              f'define void @f() gc "shadow-stack" {{\n{body}  ret void\n}}\n')
    return module, f"cert 1\nfunction @g1 {mark}\nend\nfunction @f {mark}\nend\n"


@kind("references and calls with safepoints")
def references_may_calls(n):
    """Calls of a function that may reach a safepoint, after references."""
    return called("may", references(n) + "  call void @g1(%Node* null)\n" * n)


@kind("references and calls without")
def references_none_calls(n):
    """Calls that each take a reference, after references."""
    return called("none", references(n) + lines(n, lambda i: f"  call void @g1(%Node* %x{i})"))


@kind("references and barriers")
def references_barriers(n):
    """gcwrites of each of the references."""
    body = references(n) + lines(n, lambda i: f"  %b{i} = bitcast %Node* %x{i} to i8*\n  call void @llvm.gcwrite(i8* %b{i}, "
                                              "i8* null, i8** bitcast (%Node** @g to i8**))")
    return function(body + RETURNS)


@kind("references and plain stores")
def plain_stores(n):
    """Stores of references into a fresh cell."""
    body = ("  %a = call i8* @dg_alloc(i32 0)\n  %x = bitcast i8* %a to %Node*\n  %c = icmp eq %Node* %x, null\n"
            "  br i1 %c, label %no, label %ok\nno:\n  ret void\nok:\n  %f = getelementptr %Node, %Node* %x, i32 0, i32 1\n")
    body += references(n, "y") + lines(n, lambda i: f"  store %Node* %y{i}, %Node** %f") + RETURNS
    return function(body, "block %no\nblock %ok\n%x ref Node nonnull fresh\n")


@kind("references and stores to slots")
def references_stores(n):
    """Stores of references to root slots, a slot each, and then of others."""
    body = roots(n) + references(n) + lines(n, lambda i: f"  store %Node* %x{i}, %Node** %s{i}")
    return function(body + lines(n, lambda i: f"  store %Node* %x{n - 1 - i}, %Node** %s{i}") + RETURNS)


@kind("root slots and blocks", 60000)
def slots_blocks(n):
    """Blocks in a row with a line each, after root slots."""
    body = roots(n) + "  br label %b0\n" + lines(n, lambda i: f"b{i}:\n  br label %b{i + 1}") + f"b{n}:\n  ret void\n"
    return function(body, lines(n + 1, lambda i: f"block %b{i}\n%k i64"), K)


@kind("root slots and blocks with no claim", 60000)
def slots_bare_blocks(n):
    """Blocks in a row without a line, after root slots."""
    body = roots(n) + "  br label %b0\n" + lines(n, lambda i: f"b{i}:\n  br label %b{i + 1}") + f"b{n}:\n  ret void\n"
    return function(body, lines(n + 1, lambda i: f"block %b{i}"))


@kind("values and blocks", 60000)
def values_blocks(n):
    """A switch to blocks with a line each, after numbers."""
    listed = " ".join(f"i64 {i}, label %b{i}" for i in range(n))
    body = numbers(n) + f"  switch i64 %k, label %b0 [ {listed} ]\n" + lines(n, lambda i: f"b{i}:\n  ret void")
    return function(body, lines(n, lambda i: f"block %b{i}\n%v{i} i64"), K)


@kind("values and blocks with phis", 20000)
def values_phis(n):
    """A switch to blocks with a phi and a line each, after numbers."""
    listed = " ".join(f"i64 {i}, label %b{i}" for i in range(n))
    body = (numbers(n) + f"  switch i64 %k, label %b0 [ {listed} ]\n"
            + lines(n, lambda i: f"b{i}:\n  %p{i} = phi i64 [ {i}, %entry ]" + (f", [ {i}, %entry ]" if i == 0 else "") + "\n  ret void"))
    return function(body, lines(n, lambda i: f"block %b{i}\n%p{i} i64"), K)


@kind("claims and switch cases")
def lines_cases(n):
    """Cases that lead to one block with lines."""
    listed = " ".join(f"i64 {i}, label %out" for i in range(n))
    body = numbers(n) + f"  switch i64 %k, label %out [ {listed} ]\nout:\n  ret void\n"
    return function(body, "block %out\n" + lines(n, lambda i: f"%v{i} i64"), K)


@kind("phis and switch cases")
def phis_cases(n):
    """Cases that lead to one block with phis."""
    listed = " ".join(f"i64 {i}, label %out" for i in range(n))
    body = f"  switch i64 %k, label %out [ {listed} ]\nout:\n" + lines(n, lambda i: f"  %p{i} = phi i64 [ {i}, %entry ]") + RETURNS
    return function(body, "block %out\n" + lines(n, lambda i: f"%p{i} i64"), K)


@kind("numbers of a loop, with tests")
def loop_tests(n):
    """Phis of a loop, each tested in it: the way back defines again what a test names."""
    body = ("  br label %loop\nloop:\n" + lines(n, lambda i: f"  %p{i} = phi i64 [ {i}, %entry ], [ %q{i}, %loop ]")
            + lines(n, lambda i: f"  %c{i} = icmp ult i64 %p{i}, 9\n  %q{i} = add i64 %p{i}, 1") + "  br label %loop\n")
    return function(body, "block %loop\n" + lines(n, lambda i: f"%p{i} i64"))


@kind("references of a loop, with addresses")
def loop_addresses(n):
    """Phis of a loop, each the base of an address in it."""
    body = ("  br label %loop\nloop:\n" + lines(n, lambda i: f"  %p{i} = phi %Node* [ null, %entry ], [ %q{i}, %loop ]")
            + lines(n, lambda i: f"  %a{i} = getelementptr %Node, %Node* %p{i}, i32 0, i32 0\n  %q{i} = load %Node*, %Node** @g")
            + "  br label %loop\n")
    return function(body, "block %loop\n" + lines(n, lambda i: f"%p{i} ref Node"))


@kind("references of a loop, and root slots")
def loop_slots(n):
    """Phis of a loop in a function with root slots."""
    body = (roots(n) + "  br label %loop\nloop:\n" + lines(n, lambda i: f"  %p{i} = phi %Node* [ null, %entry ], [ %q{i}, %loop ]")
            + references(n, "q") + "  br label %loop\n")
    return function(body, "block %loop\n" + lines(n, lambda i: f"%p{i} ref Node"))


@kind("references of a loop, which slots hold")
def loop_holds(n):
    """Phis of a loop, each stored in a slot of its own."""
    body = (roots(n) + "  br label %loop\nloop:\n" + lines(n, lambda i: f"  %p{i} = phi %Node* [ null, %entry ], [ %q{i}, %loop ]")
            + lines(n, lambda i: f"  store %Node* %p{i}, %Node** %s{i}") + references(n, "q") + "  br label %loop\n")
    return function(body, "block %loop\n" + lines(n, lambda i: f"%p{i} ref Node"))


@kind("definitions again in a block that leads to itself")
def again(n):
    """A block that no way but its own enters defines again what it lists."""
    body = "  ret void\nloop:\n" + references(n) + "  br label %loop\n"
    return function(body, "block %loop\n" + lines(n, lambda i: f"%x{i} ref Node"))


@kind("one class and safepoints")
def class_safepoints(n):
    """Safepoints after references that are all the same."""
    body = lines(n, lambda i: f"  %y{i} = bitcast %Node* %x to %Node*") + safepoints(n) + RETURNS
    return function(body, parameters="%Node* %x", mark="may")


@kind("one class and stores to cells")
def class_stores(n):
    """gcwrites of references that are all the same."""
    body = lines(n, lambda i: f"  %b{i} = bitcast %Node* %x to i8*")
    body += lines(n, lambda i: f"  call void @llvm.gcwrite(i8* %b{i}, i8* null, i8** bitcast (%Node** @g to i8**))")
    return function(body + RETURNS, parameters="%Node* %x")


@kind("fields and getelementptr")
def fields_elements(n):
    """Addresses of the last field of a struct whose other fields have no word."""
    head = f"%T = type {{ {'[0 x i64], ' * n}i64 }}\n"
    body = lines(n, lambda i: f"  %a{i} = getelementptr %T, %T* %x, i32 0, i32 {n}") + RETURNS
    return function(body, "param %x nonnull\n", "%T* %x", head=head)


@kind("fields and claims about addresses")
def fields_lines(n):
    """Lines of one block about addresses of the last field of a struct whose other fields have no word."""
    head = f"%T = type {{ {'[0 x i64], ' * n}i64 }}\n"
    body = lines(n, lambda i: f"  %a{i} = getelementptr %T, %T* %x, i32 0, i32 {n}") + "  br label %next\nnext:\n" + RETURNS
    listed = "block %next\n%x ref T nonnull\n" + lines(n, lambda i: f"%a{i} addr %x 0")
    return function(body, "param %x nonnull\n" + listed, "%T* %x", head=head)


@kind("struct levels and getelementptr")
def levels_elements(n):
    """Addresses of the inner struct of a struct in structs, without going to its end."""
    head = lines(n, lambda i: f"%T{i} = type {{ %T{i + 1} }}") + f"%T{n} = type {{ i64 }}\n"
    body = lines(n, lambda i: f"  %a{i} = getelementptr %T0, %T0* %x, i32 0, i32 0") + RETURNS
    return function(body, "param %x nonnull\n", "%T0* %x", head=head)


@kind("globals and loads", 4095)
def globals_loads(n):
    """Loads of each of the globals."""
    head = HEAD + lines(n, lambda i: f"@n{i} = global i64 {i}")
    return function(lines(n, lambda i: f"  %v{i} = load i64, i64* @n{i}") + RETURNS, head=head)


@kind("functions and calls", 65000)
def functions_calls(n):
    """Calls of each of the functions in one."""
    module = lines(n, lambda i: f"define void @f{i}() {{\n  ret void\n}}")
    module += "define void @all() {\n" + lines(n, lambda i: f"  call void @f{n - 1 - i}()") + "  ret void\n}\n"
    return module, "cert 1\n" + lines(n, lambda i: f"function @f{n - 1 - i} none\nend") + "function @all none\nend\n"


@kind("functions and names of others", 65000)
def functions_names(n):
    """Functions of several blocks and values, whose names are the same in each."""
    module = lines(n, lambda i: f"define i64 @f{i}(i64 %k) {{\nentry:\n  br label %next\nnext:\n  %v = add i64 %k, 1\n  ret i64 %v\n}}")
    return module, "cert 1\n" + lines(n, lambda i: f"function @f{i} none\nblock %next\n%k i64\nend")


@kind("phis and predecessors", 1000)
def phis_predecessors(n):
    """Phis with an entry for each of the predecessors: the text has n times n entries."""
    count = max(n // 10, 1) if n <= 1000 else 100
    cases_of = " ".join(f"i64 {i}, label %b{i}" for i in range(1, n))
    come = ", ".join(f"[ {i}, %b{i} ]" for i in range(n))
    body = (f"  switch i64 %k, label %b0 [ {cases_of} ]\n" + lines(n, lambda i: f"b{i}:\n  br label %out") + "out:\n"
            + lines(count, lambda i: f"  %p{i} = phi i64 {come}") + RETURNS)
    return function(body, lines(n, lambda i: f"block %b{i}") + "block %out\n" + lines(count, lambda i: f"%p{i} i64"), K)


@kind("edges in, and claims", 1000)
def ways_lines(n):
    """Blocks that list what the block that they lead to lists: the text has n times n lines."""
    listed = " ".join(f"i64 {i}, label %b{i}" for i in range(n))
    count = max(n // 10, 1)
    body = numbers(count) + f"  switch i64 %k, label %b0 [ {listed} ]\n" + lines(n, lambda i: f"b{i}:\n  br label %out") + "out:\n" + RETURNS
    block = lines(count, lambda i: f"%v{i} i64")
    return function(body, lines(n, lambda i: f"block %b{i}\n{block}".rstrip()) + f"block %out\n{block}", K)
