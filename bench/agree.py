#!/usr/bin/env python3
"""Compares what threads return in `dgc replay` with what LLVM's own code of the same functions returns.

    agree.py DGC [--modules N] [--seed S] [--keep FOLDER]

Draws N modules of sixty functions each: integers of many widths, branches, loops with phis that exchange values,
switches, calls, slots, nested structs and arrays with counted indices, references in cells and globals, with the
barriers and without. Each function is run by `dgc replay`, one thread after another and without the collector, and
by LLVM: `clang -O0` builds the same text with a runtime whose cells are never freed (from -O1 on LLVM 14 may fail
where it lowers gcroot). Half of what is computed and loaded is mixed into what a function returns. The meaning of an
instruction is a definition (crates/machine/specs), so nothing proves it to be
LLVM's; this looks for a difference, and prints the first one. FOLDER keeps the files. For use by hand.
"""
import argparse
import os
import random
import subprocess
import sys
import tempfile

from generate import DECLARED, OPERATIONS

FUNCTIONS = 60
STEPS = 150000
CELLS = 3000
WIDTHS = [1, 2, 3, 7, 8, 13, 16, 24, 31, 32, 33, 48, 63, 64]
CONDITIONS = ["eq", "ne", "ugt", "uge", "ult", "ule", "sgt", "sge", "slt", "sle"]

RUNTIME = """#include <inttypes.h>
#include <stdio.h>
#include <stdlib.h>
void *dg_alloc(int32_t layout) { (void)layout; return calloc(1, 65536); }
void dg_safepoint(void) {}
"""


def text_of(kind):
    """The text of a type: a width, ("ref", layout), ("struct", kinds) or ("array", count, kind)."""
    if isinstance(kind, int):
        return f"i{kind}"
    if kind[0] == "ref":
        return f"%L{kind[1]}*"
    if kind[0] == "struct":
        return "{ " + ", ".join(map(text_of, kind[1])) + " }"
    return f"[{kind[1]} x {text_of(kind[2])}]"


def draw_kind(draw, layouts, depth):
    """A field's type, of at most a few words."""
    choice = draw.randrange(6) if depth else draw.randrange(4)
    if choice < 3:
        return draw.choice(WIDTHS)
    if choice == 3:
        return ("ref", draw.randrange(layouts))
    if choice == 4:
        return ("struct", [draw_kind(draw, layouts, depth - 1) for _ in range(draw.randrange(1, 4))])
    return ("array", draw.randrange(1, 4), draw_kind(draw, layouts, depth - 1))


class Function:
    """The text of one function while it is drawn."""

    def __init__(self, module, name, parameters, result):
        self.module, self.draw, self.name = module, module.draw, name
        self.parameters, self.result = parameters, result
        self.lines, self.names, self.block = [], 0, "entry"
        self.cost, self.times = 1, 1
        self.values = [(f"%a{n}", kind) for n, kind in enumerate(parameters)]
        self.slots = []

    def put(self, line):
        self.lines.append("  " + line)
        self.cost += self.times

    def give(self, code, kind=None):
        """Writes an instruction under a new name; a value of a kind may be drawn from there on."""
        self.names += 1
        name = f"%v{self.names}"
        self.put(f"{name} = {code}")
        if kind is not None:
            self.values.append((name, kind))
        return name

    def label(self):
        self.names += 1
        return f"b{self.names}"

    def begin(self, label):
        self.lines.append(f"{label}:")
        self.block = label

    def integer(self, bits):
        """An operand of a width: a constant, a value, or another value that is resized."""
        same = [name for name, kind in self.values if kind == bits]
        other = [(name, kind) for name, kind in self.values if isinstance(kind, int) and kind != bits]
        choice = self.draw.random()
        if same and choice < 0.6:
            return self.draw.choice(same)
        if other and choice < 0.9:
            name, kind = self.draw.choice(other)
            word = "trunc" if kind > bits else self.draw.choice(["zext", "sext"])
            return self.give(f"{word} i{kind} {name} to i{bits}", bits)
        if bits == 1:
            return self.draw.choice(["true", "false", "0", "1"])
        low, high = -(1 << (bits - 1)), (1 << bits) - 1
        return str(self.draw.choice([0, 1, -1, low, high, self.draw.randint(low, high)]))

    def reference(self, layout):
        """A reference to a cell of a layout that is not null."""
        known = [name for name, kind in self.values if kind == ("ref", layout)]
        if known and self.draw.random() < 0.8:
            return self.draw.choice(known)
        cell = self.give(f"call i8* @dg_alloc(i32 {layout})")
        self.cost += 300 * self.times
        return self.give(f"bitcast i8* {cell} to %L{layout}*", ("ref", layout))

    def operand(self, kind):
        return self.integer(kind) if isinstance(kind, int) else self.reference(kind[1])

    def word(self):
        """The address of a word of a cell, its type, and the cell."""
        layout = self.draw.randrange(len(self.module.layouts))
        base = self.reference(layout)
        kind, path = ("struct", self.module.layouts[layout]), "i32 0"
        while not isinstance(kind, int) and kind[0] != "ref":
            if kind[0] == "struct":
                field = self.draw.randrange(len(kind[1]))
                path, kind = f"{path}, i32 {field}", kind[1][field]
            else:
                bits = self.draw.choice([8, 16, 32, 64])
                index = self.integer(bits)
                test = self.give(f"icmp ult i{bits} {index}, {kind[1]}", 1)
                index = self.give(f"select i1 {test}, i{bits} {index}, i{bits} 0", bits)
                path, kind = f"{path}, i{bits} {index}", kind[2]
        name = self.give(f"getelementptr %L{layout}, %L{layout}* {base}, {path}")
        return name, kind, f"%L{layout}*", base

    def place(self):
        """The address of a word of a cell or of a global, its type, and the object that barriers name."""
        if self.draw.random() < 0.3:
            number = self.draw.randrange(len(self.module.globals))
            return f"@g{number}", self.module.globals[number], None, None
        return self.word()

    def look(self, kind, value):
        """Makes a loaded value one that may be drawn: a reference that may be null is replaced where it is."""
        if isinstance(kind, int):
            self.values.append((value, kind))
            self.mix(value, kind)
            return
        known = self.reference(kind[1])
        test = self.give(f"icmp eq {text_of(kind)} {value}, null", 1)
        self.give(f"select i1 {test}, {text_of(kind)} {known}, {text_of(kind)} {value}", kind)

    def mixed(self):
        """What was mixed so far."""
        return self.give("load i64, i64* %mix")

    def mix(self, name, bits):
        """Mixes a value into what the function returns, every other time."""
        if self.draw.random() < 0.5:
            return
        if bits < 64:
            name = self.give(f"zext i{bits} {name} to i64")
        more = self.give(f"mul i64 {self.mixed()}, 31")
        self.put(f"store i64 {self.give(f'add i64 {more}, {name}')}, i64* %mix")

    def arithmetic(self):
        bits = self.draw.choice(WIDTHS)
        one, two = self.integer(bits), self.integer(bits)
        self.mix(self.give(f"{self.draw.choice(OPERATIONS)} i{bits} {one}, {two}", bits), bits)

    def compare(self):
        if self.draw.random() < 0.2:
            layout = self.draw.randrange(len(self.module.layouts))
            one, two = self.reference(layout), self.reference(layout)
            self.mix(self.give(f"icmp {self.draw.choice(['eq', 'ne'])} %L{layout}* {one}, {two}", 1), 1)
            return
        bits = self.draw.choice(WIDTHS)
        one = self.integer(bits)
        two = one if self.draw.random() < 0.2 else self.integer(bits)
        self.mix(self.give(f"icmp {self.draw.choice(CONDITIONS)} i{bits} {one}, {two}", 1), 1)

    def choose(self):
        kind = self.draw.choice([value[1] for value in self.values] + [32])
        test, one, two = self.integer(1), self.operand(kind), self.operand(kind)
        text = text_of(kind)
        self.give(f"select i1 {test}, {text} {one}, {text} {two}", kind)

    def load(self):
        place, kind, _, _ = self.place()
        text = text_of(kind)
        if not isinstance(kind, int) and self.draw.random() < 0.5:
            raw = self.raw(place, kind)
            value = self.give(f"call i8* @llvm.gcread(i8* null, i8** {raw})")
            self.look(kind, self.give(f"bitcast i8* {value} to {text}"))
        else:
            self.look(kind, self.give(f"load {text}, {text}* {place}"))

    def store(self):
        place, kind, cell, base = self.place()
        text = text_of(kind)
        if isinstance(kind, int) or self.draw.random() < 0.3:
            value = "null" if not isinstance(kind, int) and self.draw.random() < 0.1 else self.operand(kind)
            self.put(f"store {text} {value}, {text}* {place}")
            return
        value = self.give(f"bitcast {text} {self.reference(kind[1])} to i8*")
        whole = "null"
        if cell is not None and self.draw.random() < 0.5:
            whole = self.give(f"bitcast {cell} {base} to i8*")
        self.put(f"call void @llvm.gcwrite(i8* {value}, i8* {whole}, i8** {self.raw(place, kind)})")

    def raw(self, place, kind):
        """The place as the i8** that the barriers take."""
        if place.startswith("@"):
            return f"bitcast ({text_of(kind)}* {place} to i8**)"
        return self.give(f"bitcast {text_of(kind)}* {place} to i8**")

    def slot(self):
        name, kind = self.draw.choice(self.slots)
        text = text_of(kind)
        if self.draw.random() < 0.5:
            self.put(f"store {text} {self.operand(kind)}, {text}* {name}")
        else:
            self.look(kind, self.give(f"load {text}, {text}* {name}"))

    def call(self):
        lower = [it for it in self.module.functions if it.cost * self.times < 3000]
        if not lower:
            return
        callee = self.draw.choice(lower)
        given = ", ".join(f"{text_of(kind)} {self.operand(kind)}" for kind in callee.parameters)
        self.give(f"call {text_of(callee.result)} @{callee.name}({given})", callee.result)
        self.cost += callee.cost * self.times

    def safepoint(self):
        self.put("call void @dg_safepoint()")

    def inside(self, label, depth):
        """Writes a part of the code after a label; returns what could be drawn before it."""
        kept = list(self.values)
        self.begin(label)
        self.body(depth - 1)
        return kept

    def branch(self, depth):
        kinds = [self.draw.choice(WIDTHS), ("ref", self.draw.randrange(len(self.module.layouts)))]
        ways = self.draw.randrange(2, 5)
        labels, after = [self.label() for _ in range(ways)], self.label()
        if ways == 2:
            self.put(f"br i1 {self.integer(1)}, label %{labels[0]}, label %{labels[1]}")
        else:
            bits = self.draw.choice([2, 3, 8, 32, 64])
            cases = " ".join(f"i{bits} {n}, label %{labels[n]}" for n in range(ways - 1))
            on = self.give(f"and i{bits} {self.integer(bits)}, 3", bits)
            self.put(f"switch i{bits} {on}, label %{labels[-1]} [ {cases} ]")
        ends = []
        for label in labels:
            kept = self.inside(label, depth)
            given = [self.operand(kind) for kind in kinds]
            ends.append((self.block, given))
            self.put(f"br label %{after}")
            self.values = kept
        self.begin(after)
        for place, kind in enumerate(kinds):
            entries = ", ".join(f"[ {given[place]}, %{block} ]" for block, given in ends)
            self.give(f"phi {text_of(kind)} {entries}", kind)

    def loop(self, depth):
        """A counted loop whose phis take two values in turn."""
        bits, turns = self.draw.choice([8, 16, 32, 64]), self.draw.randrange(1, 5)
        kind = self.draw.choice(WIDTHS)
        one, two = self.integer(kind), self.integer(kind)
        head, after, entered = self.label(), self.label(), self.block
        self.put(f"br label %{head}")
        kept, times = list(self.values), self.times
        self.times *= turns
        self.begin(head)
        at = len(self.lines)
        count, left, right = (self.give("phi") for _ in range(3))
        self.values += [(count, bits), (left, kind), (right, kind)]
        self.body(depth - 1)
        grown = self.give(f"{self.draw.choice(OPERATIONS)} i{kind} {left}, {self.integer(kind)}")
        further = self.give(f"add i{bits} {count}, 1")
        test = self.give(f"icmp ult i{bits} {further}, {turns}")
        phis = [(count, bits, "0", further), (left, kind, one, right), (right, kind, two, grown)]
        for n, (name, width, first, next_one) in enumerate(phis):
            self.lines[at + n] = f"  {name} = phi i{width} [ {first}, %{entered} ], [ {next_one}, %{self.block} ]"
        self.put(f"br i1 {test}, label %{head}, label %{after}")
        self.times, self.values = times, kept + [(left, kind), (right, kind)]
        self.begin(after)

    def body(self, depth):
        plain = [self.arithmetic, self.arithmetic, self.compare, self.choose, self.load, self.store, self.store,
                 self.slot, self.call, self.safepoint]
        for _ in range(self.draw.randrange(2, 7)):
            if depth and self.draw.random() < 0.3:
                self.draw.choice([self.branch, self.loop])(depth)
            else:
                self.draw.choice(plain)()

    def text(self):
        given = ", ".join(f"{text_of(kind)} %a{n}" for n, kind in enumerate(self.parameters))
        head = [f"define {text_of(self.result)} @{self.name}({given}) gc \"shadow-stack\" {{", "entry:",
                "  %mix = alloca i64"]
        for name, kind in self.slots:
            head.append(f"  {name} = alloca {text_of(kind)}")
        for name, kind in self.slots:
            if not isinstance(kind, int):
                head += [f"  {name}r = bitcast {text_of(kind)}* {name} to i8**",
                         f"  call void @llvm.gcroot(i8** {name}r, i8* null)"]
        return "\n".join(head + ["  store i64 0, i64* %mix"] + self.lines + ["}"]) + "\n"


class Module:
    """Layouts, globals and functions, each of which calls only those before it."""

    def __init__(self, draw):
        self.draw = draw
        count = draw.randrange(1, 5)
        self.layouts = [[draw_kind(draw, count, 2) for _ in range(draw.randrange(1, 6))] for _ in range(count)]
        self.globals = [draw.choice(WIDTHS), ("ref", draw.randrange(count)), draw.choice(WIDTHS)]
        self.functions = []
        for number in range(FUNCTIONS):
            self.functions.append(self.function(number))

    def function(self, number):
        draw, helper = self.draw, self.draw.random() < 0.3
        kinds = WIDTHS + [("ref", draw.randrange(len(self.layouts)))] * 6 if helper else WIDTHS
        parameters = [draw.choice(kinds) for _ in range(draw.randrange(0, 4))]
        it = Function(self, f"f{number}", parameters, draw.choice(kinds))
        it.slots = [(f"%s{n}", draw.choice(WIDTHS + [("ref", draw.randrange(len(self.layouts)))] * 6))
                    for n in range(draw.randrange(1, 4))]
        for name, kind in it.slots:
            it.put(f"store {text_of(kind)} {it.operand(kind)}, {text_of(kind)}* {name}")
        it.body(3)
        last = it.operand(it.result)
        if isinstance(it.result, int):
            part = it.mixed()
            if it.result < 64:
                part = it.give(f"trunc i64 {part} to i{it.result}")
            last = it.give(f"xor i{it.result} {last}, {part}")
        it.put(f"ret {text_of(it.result)} {last}")
        return it

    def text(self):
        lines = [f"%L{n} = type {text_of(('struct', kinds))}" for n, kinds in enumerate(self.layouts)]
        for n, kind in enumerate(self.globals):
            first = str(self.draw.randrange(1 << kind)) if isinstance(kind, int) else "null"
            if kind == 1:
                first = ["false", "true"][int(first)]
            lines.append(f"@g{n} = global {text_of(kind)} {first}")
        return "\n".join(lines) + "\n" + DECLARED + "".join(it.text() for it in self.functions)


def begun(module):
    """The functions that a thread may begin at, each with arguments."""
    return [(it, [module.draw.randrange(1 << kind) for kind in it.parameters])
            for it in module.functions if all(isinstance(kind, int) for kind in it.parameters + [it.result])]


def write(base, module):
    """Writes the module, a trace of all its threads, and what LLVM needs to run them."""
    text, starts = module.text(), begun(module)
    with open(base + ".ll", "w") as out:
        out.write(text)
    with open(base + ".trace", "w") as out:
        out.write("trace 1\n" + "".join(f"pool L{n} {CELLS}\n" for n in range(len(module.layouts))))
        out.write("".join(" ".join(["start", "@" + it.name, *map(str, given)]) + "\n" for it, given in starts))
        out.write("steps\n" + "".join(f"t {n} {STEPS}\n" for n in range(len(starts))) + "end\n")
    with open(base + ".run.ll", "w") as out:
        out.write(text)
        for n, (it, given) in enumerate(starts):
            pairs = ", ".join(f"i{kind} {value if kind > 1 else ['false', 'true'][value]}"
                              for kind, value in zip(it.parameters, given))
            wide = "%r" if it.result == 64 else "%z"
            out.write(f"define i64 @run{n}() {{\n  %r = call i{it.result} @{it.name}({pairs})\n")
            if it.result < 64:
                out.write(f"  %z = zext i{it.result} %r to i64\n")
            out.write(f"  ret i64 {wide}\n}}\n")
    with open(base + ".c", "w") as out:
        out.write(RUNTIME + "".join(f"uint64_t run{n}(void);\n" for n in range(len(starts))))
        out.write("int main(void) {\n" + "".join(
            f'  printf("t {n} returned %" PRIu64 "\\n", run{n}());\n' for n in range(len(starts))))
        out.write("  return 0;\n}\n")


def compare(dgc, base):
    """The first line in which the two differ, or None; and how many threads returned in both."""
    replayed = subprocess.run([dgc, "replay", base + ".ll", base + ".trace"], capture_output=True, text=True)
    said = (replayed.stdout + replayed.stderr).splitlines()
    build = ["clang", "-w", "-O0", "-o", base + ".out", base + ".run.ll", base + ".c"]
    subprocess.run(build, check=True)
    run = subprocess.run([base + ".out"], capture_output=True, text=True)
    if not said or not said[0].startswith("sound"):
        return f"dgc: {said[:1]}, LLVM's code ended with {run.returncode}", 0
    threads = [line for line in said if line.startswith("t ")]
    made = run.stdout.splitlines()
    for one, two in zip(threads, made):
        if one != two:
            return f"dgc: {one}, LLVM's code: {two}", 0
    return (None, len(threads)) if len(threads) == len(made) else ("not as many lines", 0)


def main():
    parser = argparse.ArgumentParser(description=__doc__.split("\n")[0])
    parser.add_argument("dgc")
    parser.add_argument("--modules", type=int, default=20)
    parser.add_argument("--seed", type=int, default=0)
    parser.add_argument("--keep", default=None)
    options = parser.parse_args()
    threads = 0
    with tempfile.TemporaryDirectory() as scratch:
        folder = options.keep or scratch
        os.makedirs(folder, exist_ok=True)
        for number in range(options.modules):
            base = os.path.join(folder, f"m{options.seed + number}")
            write(base, Module(random.Random(options.seed + number)))
            difference, alike = compare(options.dgc, base)
            if difference:
                sys.exit(f"seed {options.seed + number}: {difference}")
            threads += alike
    print(f"{options.modules} modules, {threads} threads: each returned the same")


if __name__ == "__main__":
    main()
