"""Draws a module whose threads share cells, with a certificate that is accepted.

Each function keeps its references in root slots, and goes through pieces: it claims a cell, links one cell to another with the
barrier, follows a link, publishes a cell in a global, takes one from there, forgets one, counts in a cell, comes to a safepoint,
or calls a later function. It does so for ever, or once and returns. Two more functions return a number and a reference.
"""
from generate import DECLARED

HEAD = """%Node = type { i64, %Node*, %Node* }
%Leaf = type { i64, %Node* }
@g0 = global %Node* null
@g1 = global %Node* null
@l = global %Leaf* null
@n = global i64 7
""" + DECLARED
LAST = """define i64 @count(i64 %k) gc "shadow-stack" {
entry:
  call void @dg_safepoint()
  %v = load i64, i64* @n
  %w = add i64 %v, %k
  store i64 %w, i64* @n
  ret i64 %k
}
define %Node* @take() gc "shadow-stack" {
entry:
  call void @dg_safepoint()
  %x = load %Node*, %Node** @g0
  ret %Node* %x
}
"""
LAST_CERT = "function @count may\nend\nfunction @take may\nend\n"
SLOTS = 3


class Function:
    """A function that is being written, and its section."""

    def __init__(self, draw, number, count):
        self.draw, self.number, self.count = draw, number, count
        self.lines, self.section, self.names = [], [], 0

    def name(self):
        self.names += 1
        return f"%v{self.names}"

    def slot(self):
        return f"%s{self.draw.randrange(SLOTS)}"

    def root(self):
        return f"@g{self.draw.randrange(2)}"

    def add(self, *lines):
        self.lines += [f"  {line}" for line in lines]

    def begin(self, label, *facts):
        """Begins a block in which these facts are known."""
        self.lines.append(f"{label}:")
        self.section += [f"block %{label}", *facts]

    def load(self, place):
        value = self.name()
        self.add(f"{value} = load %Node*, %Node** {place}")
        return value

    def bytes_of(self, value, kind="%Node*"):
        name = self.name()
        self.add(f"{name} = bitcast {kind} {value} to i8*")
        return name

    def unless_null(self, value, kind="Node", fresh=""):
        """Goes on with this value where it is not null, and else with the next piece."""
        test, label = self.name(), f"n{self.names}"
        self.add(f"{test} = icmp eq %{kind}* {value}, null", f"br i1 {test}, label %{self.after}, label %{label}")
        self.begin(label, f"{value} ref {kind} nonnull{fresh}")

    def claim(self):
        cell, node = self.name(), self.name()
        self.add(f"{cell} = call i8* @dg_alloc(i32 0)", f"{node} = bitcast i8* {cell} to %Node*")
        self.unless_null(node, fresh=" fresh")
        if self.draw.random() < 0.5:
            old, place = self.load(self.slot()), self.name()
            self.add(f"{place} = getelementptr %Node, %Node* {node}, i32 0, i32 {self.draw.choice([1, 2])}",
                     f"store %Node* {old}, %Node** {place}")
        self.add(f"store %Node* {node}, %Node** {self.slot()}")

    def claim_leaf(self):
        cell, leaf = self.name(), self.name()
        self.add(f"{cell} = call i8* @dg_alloc(i32 1)", f"{leaf} = bitcast i8* {cell} to %Leaf*")
        self.unless_null(leaf, "Leaf", " fresh")
        old, place = self.load(self.slot()), self.name()
        self.add(f"{place} = getelementptr %Leaf, %Leaf* {leaf}, i32 0, i32 1", f"store %Node* {old}, %Node** {place}")
        published = self.bytes_of(leaf, "%Leaf*")
        self.add(f"call void @llvm.gcwrite(i8* {published}, i8* null, i8** bitcast (%Leaf** @l to i8**))")

    def take_from_leaf(self):
        leaf = self.name()
        self.add(f"{leaf} = load %Leaf*, %Leaf** @l")
        self.unless_null(leaf, "Leaf")
        place = self.name()
        self.add(f"{place} = getelementptr %Leaf, %Leaf* {leaf}, i32 0, i32 1")
        self.add(f"store %Node* {self.load(place)}, %Node** {self.slot()}")

    def link(self):
        cell = self.load(self.slot())
        self.unless_null(cell)
        place, word = self.name(), self.name()
        self.add(f"{place} = getelementptr %Node, %Node* {cell}, i32 0, i32 {self.draw.choice([1, 2])}",
                 f"{word} = bitcast %Node** {place} to i8**")
        value, owner = self.bytes_of(self.load(self.slot())), self.bytes_of(cell)
        self.add(f"call void @llvm.gcwrite(i8* {value}, i8* {owner}, i8** {word})")

    def follow(self):
        cell = self.load(self.slot())
        self.unless_null(cell)
        place = self.name()
        self.add(f"{place} = getelementptr %Node, %Node* {cell}, i32 0, i32 {self.draw.choice([1, 2])}")
        self.add(f"store %Node* {self.load(place)}, %Node** {self.slot()}")

    def count_in_a_cell(self):
        cell = self.load(self.slot())
        self.unless_null(cell)
        place, value, more = self.name(), self.name(), self.name()
        self.add(f"{place} = getelementptr %Node, %Node* {cell}, i32 0, i32 0", f"{value} = load i64, i64* {place}",
                 f"{more} = add i64 {value}, 1", f"store i64 {more}, i64* {place}")

    def publish(self):
        value = self.bytes_of(self.load(self.slot()))
        self.add(f"call void @llvm.gcwrite(i8* {value}, i8* null, i8** bitcast (%Node** {self.root()} to i8**))")

    def unpublish(self):
        self.add(f"call void @llvm.gcwrite(i8* null, i8* null, i8** bitcast (%Node** {self.root()} to i8**))")

    def take(self):
        self.add(f"store %Node* {self.load(self.root())}, %Node** {self.slot()}")

    def forget(self):
        self.add(f"store %Node* null, %Node** {self.slot()}")

    def safepoint(self):
        self.add("call void @dg_safepoint()")

    def call(self):
        if self.number + 1 < self.count:
            self.add(f"call void @f{self.draw.randrange(self.number + 1, self.count)}()")

    def written(self, is_endless):
        """The text of the function, and its section."""
        pieces = [self.claim, self.claim, self.claim, self.claim_leaf, self.take_from_leaf, self.link, self.link, self.follow, self.count_in_a_cell,
                  self.publish, self.unpublish, self.take, self.forget, self.safepoint, self.safepoint]
        for slot in range(SLOTS):
            self.add(f"%s{slot} = alloca %Node*", f"%r{slot} = bitcast %Node** %s{slot} to i8**", f"call void @llvm.gcroot(i8** %r{slot}, i8* null)")
        chosen = [self.draw.choice(pieces) for _ in range(self.draw.randrange(3, 16))] + [self.safepoint]
        if self.draw.random() < 0.6:
            chosen.insert(self.draw.randrange(len(chosen)), self.call)
        self.add("br label %p0")
        for number, piece in enumerate(chosen):
            self.after = f"p{number + 1}"
            self.begin(f"p{number}")
            piece()
            self.add(f"br label %{self.after}")
        self.begin(f"p{len(chosen)}")
        self.add("br label %p0" if is_endless else "ret void")
        text = "\n".join([f'define void @f{self.number}() gc "shadow-stack" {{', "entry:", *self.lines, "}"])
        return text, "\n".join([f"function @f{self.number} may", *self.section, "end"])


def draw_module(draw):
    """A module and its certificate, and what a thread that begins at a function may print after its number."""
    count = draw.randrange(2, 7)
    # a function that is called returns: an endless one comes before those that are called
    endless = sorted([draw.random() < 0.6 for _ in range(count - 1)] + [False], reverse=True)
    written = [Function(draw, number, count).written(is_endless) for number, is_endless in enumerate(endless)]
    ends = {f"f{number}": "stopped|memory|absent" if is_endless else "returned|stopped|memory|absent" for number, is_endless in enumerate(endless)}
    ends["count"] = r"returned \d+|stopped|memory|absent"
    ends["take"] = r"returned (null|ref \d+)|stopped|memory|absent"
    module = HEAD + "\n".join(text for text, _ in written) + "\n" + LAST
    return module, "cert 1\n" + "\n".join(section for _, section in written) + "\n" + LAST_CERT, ends
