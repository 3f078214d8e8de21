"""Finds the instructions of gcroot code that are refused with every certificate, and says why.

What a certificate may claim at a block has to be shown on each way into it. So the most that any certificate can claim is found by
beginning with every claim and taking away, until nothing changes, what some way does not show. Here that is done for two kinds of
claims: what each integer in a register is below, and which registers and slots have the same reference and whether it is null.
Each doubt is settled for the certificate: promises of parameters and results are taken as kept, and no reference is stale. An
instruction is refused with every certificate where, even so,
- an index is not below the length of its array (K5),
- the base of a place may be null (K4),
- or the result is an address that a phi or a select chooses (K2, or K1 where the address is not even known),
- or a getelementptr names a place by its bytes, or an element without its array (K5).
A module with such an instruction has no certificate. The text has typed pointers or opaque ones.
"""
import re

NAME = r"%[-\w.$]+"
TESTS = {("ult", True): 0, ("ule", True): 1, ("eq", True): 1, ("uge", False): 0, ("ugt", False): 1, ("ne", False): 1}
INTEGER = re.compile(r"i\d+$")
REFERENCE = re.compile(r"((%struct\.\w+|i8)\*|ptr)$")
FLAGS = re.compile(r"(?<=icmp )samesign |(?<=zext )nneg ")


class Types:
    """The named structs of a module."""

    def __init__(self, text):
        self.fields = {name: parts(body) for name, body in re.findall(r"^(%struct\.\w+) = type \{ (.*) \}$", text, re.M)}

    def unbounded(self, kind, indices, bounds):
        """The first index that is not shown to be small enough, after those of a pointer to this type."""
        if indices[0] != "0":
            return indices[0]
        for index in indices[1:]:
            array = re.match(r"\[(\d+) x (.*)\]$", kind)
            if array:
                below = bounds.get(index) if index[0] == "%" else int(index) + 1
                if below is None or below > int(array[1]):
                    return index
                kind = array[2]
            else:
                kind = self.fields.get(kind, parts(kind[2:-2]))[int(index)]
        return None


def parts(text):
    """What is between the commas that lie in no brackets."""
    found, depth = [""], 0
    for sign in text:
        depth += (sign in "[({") - (sign in "])}")
        if sign == "," and depth == 0:
            found.append("")
        else:
            found[-1] += sign
    return [part.strip() for part in found]


class State:
    """The most that can be known at a place: bounds of integers, and classes of one reference each."""

    def __init__(self):
        self.bounds, self.classes, self.nonnull, self.tests, self.count = {}, {}, set(), {}, 0

    def copy(self):
        other = State()
        other.bounds, other.classes, other.nonnull, other.count = dict(self.bounds), dict(self.classes), set(self.nonnull), self.count
        return other

    def define(self, name, nonnull=False):
        """A reference of a class of its own."""
        self.count += 1
        self.classes[name] = self.count
        if nonnull:
            self.nonnull.add(self.count)

    def same(self, name, other):
        """A reference that is the same as another, or of which nothing is known."""
        if other not in self.classes:
            self.define(name)
        else:
            self.classes[name] = self.classes[other]

    def is_nonnull(self, name):
        return name not in self.classes or self.classes[name] in self.nonnull

    def below(self, operand):
        """What an operand is shown to be below. The constants that are words are small."""
        if operand[0] == "%":
            return self.bounds.get(operand)
        return None if operand[0] == "-" else int(operand) + 1 if operand.isdigit() else 1

    def bound(self, name, below):
        self.bounds.pop(name, None)
        if below is not None:
            self.bounds[name] = below

    def learn(self, test, taken):
        """What a branch on a test shows."""
        kind, tested, constant = self.tests.get(test, ("", "", ""))
        if constant == "null" and (kind, taken) in (("ne", True), ("eq", False)) and tested in self.classes:
            self.nonnull.add(self.classes[tested])
        elif (kind, taken) in TESTS and constant.isdigit():
            below = int(constant) + TESTS[kind, taken]
            self.bounds[tested] = min(below, self.bounds.get(tested, below))

    def joined(self, other):
        """What both know."""
        both, pairs = State(), {}
        for name in self.bounds.keys() & other.bounds.keys():
            both.bounds[name] = max(self.bounds[name], other.bounds[name])
        for name in sorted(self.classes.keys() & other.classes.keys()):
            pair = self.classes[name], other.classes[name]
            both.classes[name] = pairs.setdefault(pair, len(pairs))
            if pair[0] in self.nonnull and pair[1] in other.nonnull:
                both.nonnull.add(pairs[pair])
        both.count = len(pairs)
        return both

    def said(self):
        """What is known, in a form in which equal knowledge is equal."""
        groups = {}
        for name, number in self.classes.items():
            groups.setdefault(number, set()).add(name)
        return self.bounds, {(frozenset(group), number in self.nonnull) for number, group in groups.items()}


class Reader:
    """Goes through one function and keeps what is refused with every certificate."""

    def __init__(self, function, types):
        self.f, self.types, self.refused = function, types, {}
        for block in function.blocks.values():
            block[:] = [FLAGS.sub("", line) for line in block]
        self.made = {line.split(" = ")[0]: line.split(" = ", 1)[1] for block in function.blocks.values() for line in block if re.match(rf"{NAME} = ", line)}
        self.slots = {name for name, rest in self.made.items() if rest.startswith("alloca")}
        self.addresses = self.found_addresses()
        self.entries = self.carried()

    def found_addresses(self):
        """The registers that name places in cells: those of getelementptrs, and what is cast or chosen from them."""
        found, before = {name for name, rest in self.made.items() if rest.startswith("getelementptr")}, None
        while found != before:
            before = set(found)
            for name, rest in self.made.items():
                if rest.split()[0] in ("bitcast", "select", "phi") and found & set(re.findall(NAME, rest)):
                    found.add(name)
        return found

    def carried(self):
        """For each block that a way enters, the most that any certificate can claim there."""
        first = State()
        for kind, name in self.f.parameters:
            first.bound(name, 0 if INTEGER.match(kind) else None)
            if REFERENCE.match(kind):
                first.define(name, nonnull=True)
        entries, todo = {self.f.entry: first}, [self.f.entry]
        while todo:
            label = todo.pop()
            for to, state in self.ways(label, entries[label].copy()):
                if to in entries:
                    state = entries[to].joined(state)
                if to not in entries or state.said() != entries[to].said():
                    entries[to] = state
                    todo.append(to)
        return entries

    def ways(self, label, state):
        """The ways out of a block, each with what is known after the phis of its target."""
        for place, line in enumerate(self.f.blocks[label]):
            self.step(label, place, line, state)
        branch = re.match(rf"br i1 ({NAME}), label %(\S+), label %(\S+)$", self.f.blocks[label][-1])
        for at, to in enumerate(branch.groups()[1:] if branch else self.f.ways_out(label)):
            known = state.copy()
            known.tests = state.tests
            if branch:
                known.learn(branch[1], at == 0)
            self.enter(label, to, known)
            yield to, known

    def enter(self, label, to, state):
        """The phis of a block, entered from another; all at once."""
        before = state.copy()
        for line in self.f.blocks[to]:
            phi = re.match(rf"({NAME}) = phi (\S+) .*?\[ (\S+), %{re.escape(label)} \]", line)
            if not phi:
                continue
            name, kind, operand = phi.groups()
            if INTEGER.match(kind):
                state.bound(name, before.below(operand))
            elif operand in before.classes:
                state.classes[name] = before.classes[operand]
            else:
                state.define(name)

    def step(self, label, place, line, state):
        name, _, rest = line.rpartition(" = ") if not line.startswith("store") else ("", "", line)
        word = rest.split()[0]
        self.look(label, place, word, rest, state)
        if word == "store":
            self.store(rest, state)
        elif name:
            self.define(name, word, rest, state)

    def store(self, rest, state):
        kind, value, slot = re.match(r"store (\S+) (\S+), \S+ (\S+)$", rest).groups()
        if slot in self.slots and REFERENCE.match(kind):
            state.same(slot, value)

    def define(self, name, word, rest, state):
        if word == "load":
            kind, place = re.match(r"load ([^,]+), .* (\S+)$", rest).groups()
            state.bound(name, None)
            if REFERENCE.match(kind) and place in self.slots:
                if place not in state.classes:
                    state.define(place)
                state.same(name, place)
            elif REFERENCE.match(kind):
                state.define(name)
        elif word == "bitcast":
            if re.match(rf"bitcast \S+ ({NAME}) ", rest) and rest.split()[2] in state.classes:
                state.same(name, rest.split()[2])
        elif word == "call":
            self.call(name, rest, state)
        elif word == "icmp":
            state.tests[name] = re.match(r"icmp (\w+) \S+ (\S+), (\S+)$", rest).groups()
        elif word == "select":
            self.select(name, rest, state)
        elif word != "phi":
            self.compute(name, word, rest, state)

    def call(self, name, rest, state):
        kind, called = re.match(r"call (\S+) (?:\([^()]*\) )?@([\w.$]+)", rest).groups()
        state.bound(name, 0 if INTEGER.match(kind) else None)
        if REFERENCE.match(kind):
            state.define(name, nonnull=called not in ("dg_alloc", "llvm.gcread"))

    def select(self, name, rest, state):
        kind, first, second = re.match(r"select i1 \S+, (\S+) (\S+), \S+ (\S+)$", rest).groups()
        if REFERENCE.match(kind):
            state.define(name, nonnull=all(operand in state.classes and state.is_nonnull(operand) for operand in (first, second)))
        elif INTEGER.match(kind) and kind != "i1":
            below = state.below(first), state.below(second)
            state.bound(name, None if None in below else max(below))

    def compute(self, name, word, rest, state):
        if word == "zext":
            state.bound(name, state.bounds.get(rest.split()[2]))
        elif word == "and":
            constants = [int(operand) + 1 for operand in re.findall(r" (\d+)(?=,|$)", rest)]
            state.bound(name, min(constants, default=None))
        elif word == "urem" and rest.split()[-1].isdigit():
            state.bound(name, int(rest.split()[-1]))
        else:
            state.bound(name, None)

    def base_of(self, place):
        """The register whose cell a place is in, if it is in one."""
        while place in self.addresses:
            rest = self.made[place]
            if not rest.startswith(("getelementptr", "bitcast")):
                return None
            place = re.search(rf"(?:\*|\bptr) ({NAME}|@\S+?)(,| to)", rest)[1]
        return place if place[0] == "%" and place not in self.slots else None

    def look(self, label, place, word, rest, state):
        """Keeps the reason if the instruction is refused with every certificate."""
        self.refused.pop((label, place), None)
        if word in ("select", "phi"):
            kind = re.match(r"(?:select i1 [^,]+, |phi )(\S+) ", rest)[1]
            if kind[-1] == "*" and not REFERENCE.match(kind) or kind == "ptr" and self.addresses & set(re.findall(NAME, rest)):
                self.refused[label, place] = "K2", "an address is chosen"
        elif word == "getelementptr":
            head, _, *indices = parts(re.sub(r"getelementptr (inbounds |nuw |nusw )*", "", rest))
            if not re.match(r"[%\[{]", head) or len(indices) < 2:
                self.refused[label, place] = "K5", "a place is named by its bytes" if head == "i8" else "an element is named without its array"
                return
            index = self.types.unbounded(head, [it.split()[-1] for it in indices], state.bounds)
            if index:
                self.refused[label, place] = "K5", self.why_unbounded(index)
        elif word in ("load", "store") or "@llvm.gc" in rest and "gcroot" not in rest:
            base = self.base_of(rest.rstrip(")").split()[-1])
            if base and not state.is_nonnull(base):
                self.refused[label, place] = "K4", self.why_null(base)

    def users(self, name):
        """What is made from a register."""
        return [rest for rest in self.made.values() if re.search(rf"{re.escape(name)}(?![-\w.$])", rest)]

    def sources(self, name):
        """A number in a register, and those from which it comes by changes of width, phis and arithmetic."""
        found, todo = [], [name]
        while todo:
            it = todo.pop()
            if it in found or it not in self.made:
                continue
            found.append(it)
            if self.made[it].split()[0] in ("zext", "sext", "trunc", "phi", "add", "sub", "mul", "or", "xor"):
                todo += re.findall(rf"{NAME}(?=,| to |$)", self.made[it])
        return found

    def tests_of(self, names):
        """The tests of registers against constants, each with its kind."""
        for test, rest in self.made.items():
            found = re.match(rf"icmp (\w+) \S+ ({NAME}), (\d+|null)$", rest)
            if found and found[2] in names:
                yield test, found[1]

    def why_unbounded(self, index):
        sources = self.sources(index)
        made = [self.made[name] for name in sources]
        loads = [rest.split()[-1] for rest in made if rest.startswith("load")]
        kinds = {kind for _, kind in self.tests_of(sources)}
        if any(place in self.slots for place in loads):
            return "an index is kept in a slot"
        if loads:
            return "an index is loaded from a cell"
        if any(rest.startswith("sext") for rest in made):
            return "an index is extended by sext"
        if any(user.startswith(("or ", "and ")) for name in sources for user in self.users(name)):
            return "one test is made of two"
        if kinds & {"ult", "ule", "ugt", "uge"}:
            return "an index is computed from the number that was tested"
        if kinds & {"eq", "ne"}:
            return "a loop ends by eq or ne"
        return "an index is tested with its sign" if kinds else "an index is not tested"

    def why_null(self, base):
        family = self.family(base)
        users = [user for test, _ in self.tests_of(family) for user in self.users(test)]
        ends = [block[-1] for block in self.f.blocks.values()]
        if any(re.match(r"(and|or) |select i1 \S+, i1 ", user) for user in users):
            return "one test is made of two"
        if any(self.made.get(name, "").startswith("phi") for end in ends for name in re.findall(rf"br i1 ({NAME})", end)):
            return "a test is carried by a phi"
        if any(self.made.get(name, "").startswith("select") for name in family):
            return "a reference is chosen by its test"
        return "a reference is loaded again after its test"

    def family(self, base):
        """The registers and slots that a reference may have come through."""
        links = {}
        for block in self.f.blocks.values():
            for line in block:
                for one, other in self.linked(line):
                    links.setdefault(one, set()).add(other)
                    links.setdefault(other, set()).add(one)
        found, todo = {base}, [base]
        while todo:
            for other in links.get(todo.pop(), set()) - found:
                found.add(other)
                todo.append(other)
        return sorted(found)

    def linked(self, line):
        """Pairs of registers and slots that a line may give one reference."""
        load = re.match(rf"({NAME}) = load \S+, \S+ ({NAME})$", line)
        store = re.match(rf"store \S+ ({NAME}), \S+ ({NAME})$", line)
        choice = re.match(rf"({NAME}) = (?:phi|bitcast|select i1 \S+,) (?:(?:%struct\.\w+|i8)\*|ptr) (.*)", line)
        for found in (load, store):
            if found and found[2] in self.slots:
                yield found.groups()
        if choice:
            for other in re.findall(NAME, choice[2]):
                yield choice[1], other


def refused_always(text, functions):
    """The instructions that are refused with every certificate: (function, block, place, rule, reason), in text order."""
    types = Types(text)
    for name, function in functions.items():
        reader = Reader(function, types)
        for label in function.blocks:
            if label not in reader.entries:
                continue
            list(reader.ways(label, reader.entries[label].copy()))
            for (block, place), (rule, reason) in sorted(reader.refused.items()):
                if block == label:
                    yield name, label, place, rule, reason
