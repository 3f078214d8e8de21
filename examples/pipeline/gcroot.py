#!/usr/bin/env python3
"""Makes gcroot code of what clang prints of a C program, with opaque pointers or with typed ones.

    gcroot.py IN.ll > OUT.ll

IN.ll is the text after the passes mem2reg, jump-threading and instnamer. A call of new_NAME becomes a claim of a cell of
struct NAME. A safepoint comes to the head of each loop and before each call of a function of the program. A reference that
is used after a safepoint is kept in a root slot: it is stored there where it is made, and loaded from there before each such
use. An address is computed again after a safepoint. A reference is stored into a cell or a global by gcwrite. A branch on a
negated test becomes one on the test. Data, globals outside and the functions outside that are called stay as they are, and so do
the pointers that lead there (data.py): dgc reads them with --forms wide.

Says to standard error what each function got. Ends with status 1 and one line where it cannot read IN.ll.
"""
import argparse
import re
import sys

import ir
from data import Data

RUNTIME = """declare i8* @dg_alloc(i32)
declare void @dg_safepoint()
declare void @llvm.gcroot(i8**, i8*)
declare i8* @llvm.gcread(i8*, i8**)
declare void @llvm.gcwrite(i8*, i8*, i8**)
"""
OPAQUE_RUNTIME = """declare ptr @dg_alloc(i32)
declare void @dg_safepoint()
declare void @llvm.gcroot(ptr, ptr)
declare ptr @llvm.gcread(ptr, ptr)
declare void @llvm.gcwrite(ptr, ptr, ptr)
"""
OPAQUE = re.compile(r"(?<![\w%@.$-])ptr\b(?!:)")
DECORATIONS = re.compile(r"(?<![\w%@.$-])(noundef|nonnull|nocapture|readonly|readnone|writeonly|noalias|signext|zeroext|returned|dso_local|internal|"
                         r"local_unnamed_addr|unnamed_addr|fastcc|tail|notail|dereferenceable(_or_null)?\(\d+\)|align \d+(?=[ ,)])|dead_on_return|"
                         r"(captures|range|initializes|memory|nofpclass)\(([^()]|\([^()]*\))*\))(?![\w.$:-]) ?")
NAME = r"%[-\w.$]+"
LOCAL = re.compile(rf"({NAME}) = alloca (?!.*, i\d+ %)(.*)$")  # one whose count is computed stays where it is
REFERENCE = re.compile(r"%struct\.\w+\*$|i8\*$|ptr$")
SAFEPOINT = "call void @dg_safepoint()"
CALL = r"\bcall (?P<result>\S+) (?:\([^()]*\) )?@(?P<callee>[\w.$]+)\("  # the types of the parameters may stand before the name
DATA = re.compile(r"@\S+ = (?:[\w()]+ )*?(?:(?:external|extern_weak) .*|(?:global|constant) (?:[\[{<]|%[-\w.$]+(?!\S)).*)$")


def plain(line):
    """A line without decorations, metadata and comments."""
    line = re.sub(r", ![\w.]+ ![\w.]+|, align \d+| #\d+|;.*", "", line)
    return re.sub(r" +", " ", DECORATIONS.sub("", line)).replace(" ,", ",").replace(" )", ")").strip()


class Function:
    def __init__(self, head, lines):
        found = re.match(r"define (\S+) @([\w.$]+)\((.*)\)", head)
        self.result, self.name = found[1], found[2]
        self.parameters = [tuple(part.rsplit(" ", 1)) for part in found[3].split(", ") if part]
        self.blocks = {}
        for line in lines:
            label = re.match(r"([-\w.$]+):", line)
            if label:
                block = self.blocks[label[1]] = []
            elif plain(line):
                block.append(plain(line))
        self.entry = next(iter(self.blocks))
        self.count = 0
        self.data = set()

    def calls(self):
        return {found["callee"] for block in self.blocks.values() for line in block for found in re.finditer(CALL, line)}

    def fresh(self, name):
        self.count += 1
        return f"%{name.lstrip('%')}.{self.count}x"

    def ways_out(self, label):
        return re.findall(r"label %([-\w.$]+)", self.blocks[label][-1])

    def loop_heads(self):
        """The blocks to which a way leads back."""
        heads, state, stack = set(), {}, [(self.entry, iter(self.ways_out(self.entry)))]
        state[self.entry] = "open"
        while stack:
            label, ways = stack[-1]
            to = next(ways, None)
            if to is None:
                state[label] = "done"
                stack.pop()
            elif state.get(to) == "open":
                heads.add(to)
            elif to not in state:
                state[to] = "open"
                stack.append((to, iter(self.ways_out(to))))
        return heads

    def made(self):
        """For each local name what it is: a reference of a type, an address with the line that makes it, or a slot. What leads out of the module is not there."""
        found = {name: ("reference", kind) for kind, name in self.parameters if REFERENCE.match(kind) and name not in self.data}
        for block in self.blocks.values():
            for line in block:
                made = re.match(rf"({NAME}) = (.*)", line)
                if not made or made[1] in self.data:
                    continue
                name, rest = made.groups()
                kind = re.match(r"load ([^,]+),|phi (\S+) \[|select i1 [^,]+, (\S+) |call (\S+) (?:\([^()]*\) )?@", rest)
                cast = re.match(rf"bitcast (\S+) ({NAME}) to (\S+)", rest)
                if rest.startswith("alloca"):
                    found[name] = ("slot", rest.split()[1])
                elif rest.startswith("getelementptr") and re.search(rf"(?:\*|\bptr) ({NAME}),", rest):
                    found[name] = ("address", line)
                elif cast and found.get(cast[2], ("",))[0] == "address":
                    found[name] = ("address", line)
                elif cast and REFERENCE.match(cast[3]) or kind and REFERENCE.match(next(part for part in kind.groups() if part)):
                    found[name] = ("reference", cast[3] if cast else next(part for part in kind.groups() if part))
        return found


def uses(line):
    """The local names that a line uses, but for labels and the entries of phis."""
    rest = line.split(" = ", 1)[1] if re.match(rf"{NAME} = ", line) else line
    if rest.startswith("phi "):
        return []
    rest = re.sub(rf"label {NAME}", "", rest)
    return [name for name in re.findall(NAME, rest) if not name.startswith("%struct.")]


def replaced(line, name, other):
    start = re.match(rf"{NAME} = ", line)
    at = start.end() if start else 0
    return line[:at] + re.sub(rf"(?<!label ){re.escape(name)}(?![-\w.$])", other, line[at:])


def place_of(kind):
    """The type of a place that holds this."""
    return kind if kind == "ptr" else f"{kind}*"


class Lowering:
    """The gcroot code of one function."""

    def __init__(self, function, layouts, may, outside):
        self.f, self.layouts, self.may, self.outside = function, layouts, may, outside
        self.slots, self.stores = [], {}

    def is_safepoint(self, line):
        called = re.search(CALL, line)
        return bool(called) and (called["callee"] == "dg_safepoint" or called["callee"] in self.may)

    def turn_branches(self):
        """A branch on a negated test becomes one on the test, since nothing is known where a negation is true."""
        lines = [line for block in self.f.blocks.values() for line in block]
        negated = dict(found.groups() for line in lines if (found := re.match(rf"({NAME}) = xor i1 ({NAME}), true$", line)))
        for block in self.f.blocks.values():
            branch = re.match(rf"br i1 ({NAME}), label ({NAME}), label ({NAME})$", block[-1])
            while branch and branch[1] in negated:
                block[-1] = f"br i1 {negated[branch[1]]}, label {branch[3]}, label {branch[2]}"
                branch = re.match(rf"br i1 ({NAME}), label ({NAME}), label ({NAME})$", block[-1])

    def add_calls(self):
        """Claims, and safepoints at the heads of loops and before calls."""
        heads = self.f.loop_heads()
        for label, block in self.f.blocks.items():
            lines, waits = [], label in heads
            for line in block:
                if waits and " = phi " not in line:
                    lines.append(SAFEPOINT)
                    waits = False
                claim = re.match(rf"({NAME}) = call (\S+) @new_(\w+)\(\)", line)
                called = re.search(CALL, line)
                if claim:
                    name, kind, layout = claim.groups()
                    lines += self.claim(name, kind, self.layouts.index(layout))
                    continue
                if called and not called["callee"].startswith("llvm.") and called["callee"] not in self.outside:
                    lines.append(SAFEPOINT)
                lines.append(line)
            block[:] = lines

    def claim(self, name, kind, layout):
        if kind == "ptr":
            return [f"{name} = call ptr @dg_alloc(i32 {layout})"]
        return [f"{name}.cell = call i8* @dg_alloc(i32 {layout})", f"{name} = bitcast i8* {name}.cell to {kind}"]

    def current_at(self, names):
        """For each block, which of these names are still current where it begins: no way from where they are made meets a safepoint."""
        parameters = {name for _, name in self.f.parameters}
        known = {self.f.entry: names & parameters}
        todo = [self.f.entry]
        while todo:
            label = todo.pop()
            now = set(known[label])
            for line in self.f.blocks[label]:
                now = self.current_after(line, now, names)
            for to in self.f.ways_out(label):
                joined = now & known[to] if to in known else now
                if to not in known or joined != known[to]:
                    known[to] = joined
                    todo.append(to)
        return known

    def current_after(self, line, now, names):
        if self.is_safepoint(line):
            now = set()
        made = re.match(rf"({NAME}) = ", line)
        return now | {made[1]} if made and made[1] in names else now

    def mend_uses(self, names, again):
        """Puts lines before each use of a name that is not current there, and the name that they make in its place."""
        known = self.current_at(names)
        ends = {}
        for label, block in self.f.blocks.items():
            now, lines = set(known.get(label, names)), []
            for line in block:
                for name in dict.fromkeys(uses(line)):
                    if name in names and name not in now:
                        before, other = again(name)
                        lines += before
                        line = replaced(line, name, other)
                lines.append(line)
                now = self.current_after(line, now, names)
            block[:] = lines
            ends[label] = now
        self.mend_phis(names, again, ends)

    def mend_phis(self, names, again, ends):
        for label, block in self.f.blocks.items():
            for at, line in enumerate(block):
                if " = phi " not in line:
                    continue
                for value, source in re.findall(rf"\[ ({NAME}), %([-\w.$]+) \]", line):
                    if value in names and value not in ends[source]:
                        before, other = again(value)
                        self.f.blocks[source][-1:-1] = before
                        line = line.replace(f"[ {value}, %{source} ]", f"[ {other}, %{source} ]")
                block[at] = line

    def mend_addresses(self):
        """Computes addresses again after safepoints."""
        for _ in range(8):
            made = self.f.made()
            names = {name for name, (sort, _) in made.items() if sort == "address"}

            def again(name):
                other = self.f.fresh(name)
                return [f"{other} = {made[name][1].split(' = ', 1)[1]}"], other

            before = [list(block) for block in self.f.blocks.values()]
            self.mend_uses(names, again)
            if before == [list(block) for block in self.f.blocks.values()]:
                return

    def mend_references(self):
        """Keeps references in slots over safepoints."""
        made = self.f.made()
        names = {name for name, (sort, _) in made.items() if sort == "reference"}
        kept = []

        def again(name):
            if name not in kept:
                kept.append(name)
            other, kind = self.f.fresh(name), made[name][1]
            return [f"{other} = load {kind}, {place_of(kind)} {name}.root"], other

        self.mend_uses(names, again)
        for name in kept:
            self.slots.append((f"{name}.root", made[name][1]))
            self.keep(name, made[name][1])

    def keep(self, name, kind):
        """Stores a reference into its slot where it is made."""
        store = f"store {kind} {name}, {place_of(kind)} {name}.root"
        if name in [parameter for _, parameter in self.f.parameters]:
            self.f.blocks[self.f.entry].insert(self.end_of_allocas(), store)
            return
        for block in self.f.blocks.values():
            for at, line in enumerate(block):
                if line.startswith(f"{name} = "):
                    while " = phi " in block[at] and " = phi " in block[at + 1]:
                        at += 1
                    block.insert(at + 1, store)
                    return

    def end_of_allocas(self):
        block = self.f.blocks[self.f.entry]
        return max([at + 1 for at, line in enumerate(block) if LOCAL.match(line)], default=0)

    def base_of(self, made, place):
        """The reference whose cell an address lies in."""
        while made.get(place, ("",))[0] == "address":
            place = re.search(rf"(?:\*|\bptr) ({NAME})", made[place][1].split(" = ", 1)[1])[1]
        return place

    def add_barriers(self):
        made = self.f.made()
        slots = {name for name, _ in self.slots}
        for block in self.f.blocks.values():
            lines = []
            for line in block:
                store = re.match(r"store (\S+) (\S+), (\S+) (\S+)$", line)
                if not store or not REFERENCE.match(store[1]) or made.get(store[4], ("",))[0] == "slot" or store[4] in slots or store[4] in self.f.data:
                    lines.append(line)
                    continue
                kind, value, place_kind, place = store.groups()
                lines += self.barrier(made, kind, value, place_kind, place)
            block[:] = lines

    def barrier(self, made, kind, value, place_kind, place):
        lines = []

        def bytes_of(name, kind):
            if kind in ("i8*", "ptr") or name == "null":
                return name
            other = self.f.fresh(name)
            lines.append(f"{other} = bitcast {kind} {name} to i8*")
            return other

        stored = bytes_of(value, kind)
        if kind == "ptr":
            owner = self.base_of(made, place) if place.startswith("%") else "null"
            return [f"call void @llvm.gcwrite(ptr {stored}, ptr {owner}, ptr {place})"]
        if place.startswith("@"):
            return lines + [f"call void @llvm.gcwrite(i8* {stored}, i8* null, i8** bitcast ({place_kind} {place} to i8**))"]
        base = self.base_of(made, place)
        owner = bytes_of(base, made[base][1]) if made.get(base, ("",))[0] == "reference" else "null"
        word = self.f.fresh(place)
        lines.append(f"{word} = bitcast {place_kind} {place} to i8**")
        return lines + [f"call void @llvm.gcwrite(i8* {stored}, i8* {owner}, i8** {word})"]

    def add_roots(self):
        """Puts the allocas first, and makes a root of each slot of references. An array, a struct and what is counted is none."""
        block = self.f.blocks[self.f.entry]
        allocas = [line for line in block if LOCAL.match(line)] + [f"{name} = alloca {kind}" for name, kind in self.slots]
        roots = []
        for line in allocas:
            name, kind = LOCAL.match(line).groups()
            if REFERENCE.match(kind):
                roots += self.root(name, kind)
        block[:] = allocas + roots + [line for line in block if not LOCAL.match(line)]

    def root(self, name, kind):
        if kind == "ptr":
            return [f"call void @llvm.gcroot(ptr {name}, ptr null)"]
        if kind == "i8*":
            return [f"call void @llvm.gcroot(i8** {name}, i8* null)"]
        return [f"{name}.place = bitcast {kind}* {name} to i8**", f"call void @llvm.gcroot(i8** {name}.place, i8* null)"]

    def text(self):
        """The text of the function."""
        self.turn_branches()
        self.add_calls()
        self.mend_addresses()
        self.mend_references()
        self.add_barriers()
        self.add_roots()
        lines = [f"define {self.f.result} @{self.f.name}({', '.join(f'{kind} {name}' for kind, name in self.f.parameters)}) gc \"shadow-stack\" {{"]
        for label, block in self.f.blocks.items():
            lines.append(f"{label}:")
            lines += [f"  {line}" for line in block]
        return "\n".join(lines + ["}"])


def functions_of(text):
    """The functions that a text defines, by their names."""
    found = {}
    for head, body in re.findall(r"^(define [^\n]*)\{\n(.*?)^\}", re.sub(r"\[\n(.*?)\n *\]", lambda cases: "[ " + cases[1].replace("\n", " ") + " ]", text, flags=re.S), flags=re.S | re.M):
        function = Function(plain(head), body.split("\n"))
        found[function.name] = function
    return found


def code_of(text):
    """The lines of types and functions."""
    return "\n".join(plain(line) for line in text.split("\n") if not re.match(r"source_filename|target |attributes |!|;|@", line))


def plain_text(text):
    """The text without decorations and metadata, each switch on one line."""
    whole = re.sub(r"\[\n(.*?)\n *\]", lambda cases: "[ " + cases[1].replace("\n", " ") + " ]", text, flags=re.S)
    return "\n".join(map(plain, whole.split("\n")))


def is_opaque(text):
    """Whether the pointers of a text have no types."""
    return bool(OPAQUE.search(code_of(text)))


def module_of(text, names=None):
    """The module of these functions, or of all, as gcroot code."""
    types = [plain(line) for line in text.split("\n") if re.match(r"%struct\.\w+ = type (\{|opaque)", line)]
    globals_of = [line if DATA.match(line) else plain(line) for line in text.split("\n") if re.match(r"@\S+ = ", line)]
    layouts = [re.match(r"%struct\.(\w+)", line)[1] for line in types]
    functions = functions_of(text)
    for function, name in data_of(text):
        functions[function].data.add(name)
    names = list(functions) if names is None else names
    may = {it for it in names if functions[it].loop_heads() or functions[it].calls() & set(functions)}
    for _ in names:
        may |= {it for it in names if functions[it].calls() & may}
    outside = outside_of(text)
    bodies = [Lowering(functions[it], layouts, may, outside).text() for it in names]
    runtime = OPAQUE_RUNTIME if is_opaque(text) else RUNTIME
    called = set().union(*(functions[it].calls() for it in names))
    declares = "".join(line + "\n" for name, line in outside.items() if name in called)
    return "\n".join(types + globals_of) + "\n" + runtime + declares + "\n".join(bodies) + "\n"


def data_of(text):
    """The local names that lead out of the module, each with its function: none where the text cannot be read as a whole."""
    try:
        found = Data(ir.read(text)).values
    except ir.Fault:
        return []
    return [(function.lstrip("@"), name) for function, name in found]


def without_copies(text):
    """The text with a declaration in place of each definition that is a copy of a function outside, as of one that a header of C has."""
    return re.sub(r"^define available_externally ([^\n]*) \{\n.*?^\}", r"declare \1", text, flags=re.M | re.S)


def outside_of(text):
    """The lines that declare functions outside of the program which give a number, a pointer or nothing, and LLVM's functions of numbers, by their names."""
    outside = {}
    for line in map(plain, re.findall(r"^declare [^\n]*", text, re.M)):
        found = re.match(r"declare (void|i\d+|float|double|ptr|\S+\*) @([\w.$]+)\((.*)\)$", line)
        if found and not found[2].startswith("new_") and (found[1] != "void" or not found[2].startswith("llvm.")):
            outside[found[2]] = line
    return outside


def fault(text):
    """Why a text cannot be made into gcroot code, or None."""
    code = code_of(text)
    if re.search(r"%\d", code) or re.search(r"^define [^\n]*\n(?![-\w.$]+:)", code, re.M):
        return "it has values or blocks without names: run the pass instnamer"
    unread = [line for line in re.findall(r"^define [^\n]*", text, re.M) if not re.match(r"define \S+ @[\w.$]+\(", plain(line))]
    if unread:
        return f"it does not read this line: {unread[0]}"
    functions = functions_of(text)
    if not functions:
        return "it defines no function"
    structs = re.findall(r"^%struct\.(\w+) = type \{", text, re.M)
    outside = outside_of(text)
    for function in functions.values():
        for called in sorted(function.calls() - set(functions)):
            if called.startswith("new_") and called[4:] not in structs:
                return f"@{function.name} calls @{called}, and there is no struct {called[4:]}"
            if not called.startswith(("new_", "llvm.")) and called not in outside:
                return f"@{function.name} calls @{called}, which the program does not define, and which does not give a number, a pointer or nothing"
    return None


def report(module):
    """For each function of a module what the tool put into it."""
    for name, body in re.findall(r"^define \S+ @([\w.$]+)\(.*?\{\n(.*?)^\}", module, re.M | re.S):
        told = [("claims", "@dg_alloc("), ("safepoints", SAFEPOINT), ("roots", "@llvm.gcroot("), ("barriers", "@llvm.gcwrite(")]
        counts = [f"{what} {body.count(sign)}" for what, sign in told]
        loads = len(re.findall(rf"^  {NAME} = load [^,]+, \S+ {NAME}\.root$", body, re.M))
        yield f"@{name}: " + ", ".join(counts[:3] + [f"loads from roots {loads}"] + counts[3:])


def main():
    parser = argparse.ArgumentParser(description=__doc__.split("\n")[0])
    parser.add_argument("text", metavar="IN.ll")
    options = parser.parse_args()
    try:
        with open(options.text, encoding="utf-8") as file:
            text = without_copies(file.read())
    except OSError as error:
        sys.exit(f"gcroot.py: {options.text}: {error.strerror}")
    wrong = fault(text)
    if wrong:
        sys.exit(f"gcroot.py: {options.text}: {wrong}")
    module = module_of(text)
    print("\n".join(report(module)), file=sys.stderr)
    sys.stdout.write(module)


if __name__ == "__main__":
    main()
