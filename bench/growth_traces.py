"""Kinds of which a trace has many, and the heap that it begins with."""
from generate import DECLARED
from growth_kinds import kind, lines
from replays import MODULE


def trace(steps, pools="pool Node 100\n", starts="start @spin\n"):
    """A trace with these steps."""
    return f"trace 1\n{pools}{starts}steps\n{steps}end\n"


@kind("pools", 500000, "replay")
def pools(n):
    """Layouts with a pool each."""
    module = lines(n, lambda i: f"%T{i} = type {{ i64 }}") + MODULE
    return module, trace("c 100\n", "pool Node 10\n" + lines(n, lambda i: f"pool T{i} 2"))


@kind("threads", 64, "replay")
def threads(n):
    """Threads that make 2,000 steps each, a few at a time."""
    steps = "".join(f"t {i} 5\n" for _ in range(400) for i in range(n))
    return MODULE, trace(steps + "c 100\n", starts="start @spin\n" * n)


@kind("trace lines", command="replay")
def trace_lines(n):
    """Lines of one step each, by the thread and the collector in turn."""
    return MODULE, trace("".join("t 0 1\n" if i % 2 else "c 1\n" for i in range(n)))


@kind("steps of a line", 10000000, "replay")
def steps(n):
    """Steps of one thread, on one line."""
    return MODULE, trace(f"t 0 {n}\n"), n


@kind("arguments of a start", 20000, "replay")
def arguments(n):
    """Arguments of a thread."""
    listed = ", ".join(f"i64 %p{i}" for i in range(n))
    return f"define void @f({listed}) {{\n  ret void\n}}\n", trace("t 0 5\n", "", "start @f" + " 1" * n + "\n")


DEEP = "define void @down() {\nentry:\n  call void @down()\n  ret void\n}\n"


@kind("threads of 10,000 frames", 64, "replay")
def deep_threads(n):
    """Threads of a function that calls itself, until it is at the limit of frames."""
    return DEEP, trace("".join(f"t {i} 10005\n" for i in range(n)), "", "start @down\n" * n), 10000 * n


@kind("names of a function of 10,000 frames", 5000, "replay")
def many_names(n):
    """A function that calls itself until it is at the limit of frames, with blocks that it never enters."""
    blocks = lines(n, lambda i: f"b{i}:\n  br label %b{(i + 1) % n}")
    return DEEP.replace("}\n", blocks + "}\n"), trace("t 0 10005\n", "", "start @down\n"), n


STORES = """%Node = type { i64, %Node* }
@g = global %Node* null
""" + DECLARED + """define void @spin() gc "shadow-stack" {
entry:
  %s = alloca %Node*
  %r = bitcast %Node** %s to i8**
  call void @llvm.gcroot(i8** %r, i8* null)
  %a = call i8* @dg_alloc(i32 0)
  %x = bitcast i8* %a to %Node*
  store %Node* %x, %Node** %s
  call void @down(%Node* %x)
  br label %loop
loop:
  %b = bitcast %Node* %x to i8*
  call void @llvm.gcwrite(i8* %b, i8* null, i8** bitcast (%Node** @g to i8**))
  br label %loop
}
"""
NOTHING = "define void @down(%Node* %x) gc \"shadow-stack\" {\n  ret void\n}\n"


@kind("empty cells and stores", 300000, "replay")
def cells_stores(n):
    """Stores of one reference in a global, beside cells that nobody claims; a store takes some five steps."""
    return STORES + NOTHING, trace(f"t 0 {5 * n}\n", f"pool Node {n + 10}\n"), n


@kind("globals and stores", 4000, "replay")
def globals_stores(n):
    """Stores of one reference in a global, beside other globals."""
    module = STORES.replace("@g =", lines(n, lambda i: f"@h{i} = global %Node* null") + "@g =") + NOTHING
    return module, trace(f"t 0 {5 * n}\n"), n


@kind("claimed cells and claims", 4000, "replay")
def claims(n):
    """Claims that keep nothing: each tries the cells that were claimed before."""
    module = MODULE.replace("store %Node* %x, %Node** %s", "store %Node* null, %Node** %s")
    return module, trace(f"t 0 {n * n // 2 + 10 * n}\n", f"pool Node {2 * n}\n"), n * n // 2 + 10 * n


@kind("frames with roots", 9000, "replay")
def frames(n):
    """A function that calls itself, with a root slot in each frame that holds one cell."""
    down = ('define void @down(%Node* %x) gc "shadow-stack" {\n  %s = alloca %Node*\n  %r = bitcast %Node** %s to i8**\n'
            "  call void @llvm.gcroot(i8** %r, i8* null)\n  store %Node* %x, %Node** %s\n  call void @down(%Node* %x)\n  ret void\n}\n")
    return STORES + down, trace(f"t 0 {n * 6}\n"), n
