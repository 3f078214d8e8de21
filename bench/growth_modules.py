"""Kinds of which a module has many outside its functions' bodies."""
from generate import HEAD
from growth_kinds import function, kind, lines

RETURNS = "  ret void\n"


@kind("types")
def types(n):
    """The types of a struct's fields, each another."""
    fields = ", ".join(f"[0 x [{i} x i64]]" for i in range(n))
    return f"%T = type {{ {fields} }}\n", "cert 1\n"


@kind("types of 64 levels")
def deep_types(n):
    """Types of arrays in arrays; the struct is the first level, and i64 the last."""
    fields = ", ".join("[0 x " + "[1 x " * 60 + f"[{i} x i64]" + "]" * 61 for i in range(n))
    return f"%T = type {{ {fields} }}\n", "cert 1\n"


@kind("structs")
def structs(n):
    """Structs that refer to each other."""
    return lines(n, lambda i: f"%T{i} = type {{ i64, %T{(i + 1) % n}* }}"), "cert 1\n"


@kind("structs in structs")
def nested_structs(n):
    """Structs that hold the next one by value."""
    return lines(n, lambda i: f"%T{i} = type {{ %T{i + 1} }}") + f"%T{n} = type {{ i64 }}\n", "cert 1\n"


@kind("structs that hold the next twice")
def doubled_structs(n):
    """Structs without a word, each with the next one twice."""
    return lines(n, lambda i: f"%T{i} = type {{ %T{i + 1}, %T{i + 1} }}") + f"%T{n} = type {{}}\n", "cert 1\n"


@kind("structs that hold a ring", says="error Y1")
def ring(n):
    """Structs that hold the last one by value, which holds itself: the texts are refused."""
    return lines(n, lambda i: f"%T{i} = type {{ [{i + 1} x %T{n}] }}") + f"%T{n} = type {{ %T{n} }}\n", "cert 1\n"


@kind("structs between two rings", says="error Y1")
def between_rings(n):
    """Structs that a struct holds which holds itself, and that hold another one that does: the texts are refused."""
    held = ", ".join(f"%T{i}" for i in range(n))
    return lines(n, lambda i: f"%T{i} = type {{ %B }}") + f"%A = type {{ %A, {held} }}\n%B = type {{ %B }}\n", "cert 1\n"


@kind("fields")
def fields(n):
    """The fields of one struct; all but the last have no word."""
    return f"%T = type {{ {'[0 x i64], ' * n}i64 }}\n", "cert 1\n"


@kind("names", 65000)
def names(n):
    """Functions with a named parameter, a named block and a named value."""
    module = lines(n, lambda i: f"define i64 @f{i}(i64 %p{i}) {{\nb{i}:\n  %v{i} = add i64 %p{i}, 1\n  ret i64 %v{i}\n}}")
    return module, "cert 1\n" + lines(n, lambda i: f"function @f{i} none\nend")


@kind("long names", 50000)
def long_names(n):
    """Values with names of 120 bytes."""
    body = lines(n, lambda i: f"  %{'long' * 28}{i:08} = add i64 1, 2") + RETURNS
    return function(body)


@kind("quoted names", 50000)
def quoted_names(n):
    """Values with names in quotes."""
    return function(lines(n, lambda i: f'  %"a b \\22 {i}" = add i64 1, 2') + RETURNS)


@kind("declares", 65000)
def declares(n):
    """Declared functions."""
    return lines(n, lambda i: f"declare void @d{i}(i64, i8*)"), "cert 1\n"


@kind("globals", 4096)
def globals_of(n):
    """Globals."""
    return lines(n, lambda i: f"@n{i} = global i64 {i}"), "cert 1\n"


@kind("functions", 65000)
def functions(n):
    """Functions that call the next one."""
    module = lines(n, lambda i: f"define void @f{i}() {{\n  call void @f{(i + 1) % n}()\n  ret void\n}}")
    return module, "cert 1\n" + lines(n, lambda i: f"function @f{i} none\nend")


@kind("parameters")
def parameters(n):
    """Parameters of one function, each with a line in the certificate."""
    listed = ", ".join(f"%Node* %p{i}" for i in range(n))
    return function(RETURNS, lines(n, lambda i: f"param %p{i} nonnull"), listed)


@kind("metadata, attributes and comdats")
def unread(n):
    """Lines at the top level that have no effect."""
    third = n // 3
    return (lines(third, lambda i: f"!{i} = !{{i32 {i}}}") + lines(third, lambda i: f"attributes #{i} = {{ nounwind }}")
            + lines(third, lambda i: f"$c{i} = comdat any")), "cert 1\n"


@kind("comments")
def comments(n):
    """Comments."""
    return HEAD + lines(n, lambda i: f"; comment {i}"), "cert 1\n" + lines(n, lambda i: f"; comment {i}")


@kind("trusted functions", 65000, command="check, wide")
def trusted_functions(n):
    """Functions outside, each called once."""
    declares = lines(n, lambda i: f"declare i64 @o{i}(i64)")
    calls = lines(n, lambda i: f"  %v{i} = call i64 @o{i}(i64 1)")
    module = f"{declares}define void @f() {{\nentry:\n{calls}{RETURNS}}}\n"
    return module, "cert 1\n" + lines(n, lambda i: f"foreign @o{i} none") + "function @f none\nend\n"


@kind("layouts with numbers", 65000, command="check, wide")
def numbered_layouts(n):
    """Layouts with a number each, of which a cell is made once."""
    structs = lines(n, lambda i: f"%T{i} = type {{ i64 }}")
    calls = lines(n, lambda i: f"  %v{i} = call i8* @dg_alloc(i32 {n - i})")
    module = f'{structs}declare i8* @dg_alloc(i32)\ndefine void @f() gc "shadow-stack" {{\nentry:\n{calls}{RETURNS}}}\n'
    return module, "cert 1\n" + lines(n, lambda i: f"number T{i} {i + 1}") + "function @f may\nend\n"
