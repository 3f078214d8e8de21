#!/usr/bin/env python3
"""Writes a module with forms that dgc does not read as one that it reads, and that does all that the first one may do.

    abstract.py MODULE.ll > OUT.ll

Whether a module is safe beside the collector does not depend on what a number is, but for indices. So each number that comes of a
form that is not read (division, shifts, floats, a call of a function that is only declared, constant data, ..) becomes a load of a
global integer @any.iN, which a late thread @any.set.iN may set before each such load. Where `dgc check` says yes of OUT.ll, that covers
every value of each of these numbers. docs/ABSTRACTION.md has the argument, and what is trusted.

What this script does not know it leaves as it stands, for dgc to refuse: a call to which a reference is passed, a reference as a number,
a function as a value. Pointers may be typed or opaque. It says to standard error what became what, and which lines it left. It ends with
status 1 and one line where it cannot read MODULE.ll.
"""
import argparse
import collections
import re
import struct
import sys

import ir
from data import FLOATS, GONE, IN_MEMORY, KEPT, NUMBERS, Data, is_wide, number

EXACT = ("add", "sub", "mul", "and", "or", "xor")
CHOICES = {"smax": "sgt", "smin": "slt", "umax": "ugt", "umin": "ult"}
FORMATS = ("double", "float")
PLAIN = re.compile(r'%|-?\d+$|(true|false|undef|zeroinitializer)$')


class Left(Exception):
    """An instruction that stays as it is."""


def bits_of(text, of_type):
    """The bits of a constant of a float type, as LLVM writes it: decimal, or the bits of the double in hexadecimal."""
    if text in ("undef", "zeroinitializer"):
        return "0"
    if of_type not in FORMATS or not re.match(r"0x[0-9A-Fa-f]{1,16}$|-?\d+\.\d*([eE][-+]?\d+)?$", text):
        raise Left
    bits = int(text, 16) if text.startswith("0x") else struct.unpack("<Q", struct.pack("<d", float(text)))[0]
    if of_type == "double":
        return str(bits)
    value = struct.unpack("<d", struct.pack("<Q", bits))[0]
    if value != value:
        return str(bits >> 63 << 31 | 0x7F800000 | (bits >> 29 & 0x7FFFFF))
    return str(struct.unpack("<I", struct.pack("<f", value))[0])


def number_type(of_type):
    """A type in which each type of numbers was changed for the one that stands for it."""
    return ir.mapped(of_type, lambda scalar: number(scalar) or scalar)


class Abstraction:
    """A module and what becomes of it."""

    def __init__(self, module):
        self.m, self.data = module, Data(module)
        self.is_opaque = any("ptr" in re.findall(r"[\w*]+", of_type) for of_type in self.written_types())
        names = set(module.globals) | set(module.functions) | set(module.declared)
        for function in module.functions.values():
            names |= {name for _, name in function.parameters} | {label for label, _ in function.blocks} | {it.name for it in self.data.body[function.name]}
        self.mark = next(mark for mark in self.marks() if not any(name and name[1:].startswith(mark) for name in names))
        self.any_types, self.told, self.left = set(), collections.Counter(), []

    @staticmethod
    def marks():
        yield "any."
        yield from (f"any{count}." for count in range(1 << 30))

    def written_types(self):
        yield from self.m.types.values()
        yield from (it.type for it in self.m.globals.values())
        for function in self.m.functions.values():
            yield function.result
            yield from (of_type for of_type, _ in function.parameters)
            for it in self.data.body[function.name]:
                yield it.type or ""
                yield from (operand.type for operand in it.operands)

    def place(self, of_type):
        return f"{'ptr' if self.is_opaque else of_type + '*'} @{self.mark}{of_type}"

    # Items.
    def global_line(self, it):
        """The line of a global that stays, or None."""
        if it.name in self.data.globals:
            return None
        if {"thread_local", "addrspace"} & set(it.words) or not (number(it.type) or ir.is_pointer(it.type)):
            return it.text
        try:
            value = bits_of(it.value, it.type) if it.type in FLOATS else it.value
        except Left:
            return it.text
        words = [word for word in it.words if word in ("internal", "private", "global", "constant")]
        return f"{it.name} = {' '.join(words)} {number_type(it.type)} {value}"

    def setters(self):
        for of_type in sorted(self.any_types):
            yield f'define void @{self.mark}set.{of_type}({of_type} %x) gc "shadow-stack" {{\nentry:\n  store {of_type} %x, {self.place(of_type)}\n  ret void\n}}'

    def type_lines(self, rest):
        """The lines of the structs. One that nothing names any more keeps its place, with one integer."""
        named = {ir.plain_name(name) for line in rest for name in re.findall(r'%(?:[-\w.$]+|"[^"]*")', line)} | self.data.claimed
        todo = [name for name in named if name in self.m.types]
        while todo:
            for name in re.findall(r'%(?:[-\w.$]+|"[^"]*")', self.m.types[todo.pop()]):
                if ir.plain_name(name) not in named and ir.plain_name(name) in self.m.types:
                    named.add(ir.plain_name(name))
                    todo.append(ir.plain_name(name))
        for name, of_type in self.m.types.items():
            yield f"{name} = type {number_type(of_type) if name in named else '{ i64 }'}"

    def text(self):
        functions = [Body(self, function).text() for function in self.m.functions.values()]
        globals_of = [line for line in map(self.global_line, self.m.globals.values()) if line]
        mentioned = {ir.plain_name(name) for text in functions for name in re.findall(r'@(?:[-\w.$]+|"[^"]*")', text)}
        declared = [it.text for it in self.m.declared.values() if it.name in mentioned]
        rest = globals_of + declared + functions
        anys = [f"@{self.mark}{of_type} = global {of_type} 0" for of_type in sorted(self.any_types)]
        return "\n".join(["; By abstract.py (docs/ABSTRACTION.md).", *self.m.targets, *self.type_lines(rest), *globals_of, *anys, *declared, *functions, *self.setters()]) + "\n"


class Body:
    """One function."""

    def __init__(self, whole, function):
        self.w, self.m, self.data, self.f = whole, whole.m, whole.data, function
        self.lines, self.count, self.late, self.ends = [], 0, [], {}

    # Names.
    def local(self, name):
        return f"%{self.w.mark}{name[1:]}" if name[1:].isdigit() else name

    def fresh(self):
        self.count += 1
        return f"%{self.w.mark}v{self.count}"

    def put(self, line):
        self.lines.append("  " + line)

    def any_of(self, of_type):
        """A new register with any number."""
        name = self.fresh()
        self.any(name, of_type)
        return name

    def any(self, name, of_type):
        self.w.any_types.add(of_type)
        self.w.told["any number"] += 1
        self.put(f"{name} = load {of_type}, {self.w.place(of_type)}")

    # Operands.
    def is_data(self, operand):
        return ir.is_pointer(operand.type) and self.data.is_data(self.f.name, operand.value)

    def number(self, operand):
        """A number as an operand, or a new register with any number in place of one that the text does not tell."""
        if not number(operand.type) or (self.f.name, operand.value) in self.data.bundles:
            raise Left
        if operand.value.startswith("%"):
            return self.local(operand.value)
        if is_wide(operand.type):
            return "0"
        if operand.type in FLOATS:
            return bits_of(operand.value, operand.type)
        if not PLAIN.match(operand.value):
            raise Left
        return operand.value

    def is_plain(self, operand):
        """Whether a number is a register or a constant that means the same here."""
        return bool(number(operand.type)) and not is_wide(operand.type) and bool(PLAIN.match(operand.value) or operand.type in FORMATS and re.match(r"0x|-?\d", operand.value))

    def pointer(self, operand):
        """A pointer that does not lead to data."""
        text = operand.value
        if not ir.is_pointer(operand.type) or self.is_data(operand):
            raise Left
        if text.startswith("%"):
            return self.local(text)
        if text in ("null", "undef", "zeroinitializer") or text in self.m.globals:
            return text
        cast = ir.cast_of_global(text)
        if not cast or cast[1] not in self.m.globals:
            raise Left
        return f"bitcast ({number_type(cast[0])} {cast[1]} to {number_type(cast[2])})"

    def typed(self, operand):
        if ir.is_pointer(operand.type):
            return f"{number_type(operand.type)} {self.pointer(operand)}"
        return f"{number(operand.type)} {self.number(operand)}"

    # Instructions.
    def binary(self, it):
        bits, plain = ir.width(it.type), all(map(self.is_plain, it.operands))
        if not number(it.type):
            raise Left
        constant = int(it.operands[1].value) if re.match(r"\d+$", it.operands[1].value) else None
        if it.kind in EXACT and plain:
            self.put(f"{self.local(it.name)} = {it.kind} {it.type} {self.number(it.operands[0])}, {self.number(it.operands[1])}")
        elif it.kind == "shl" and plain and constant is not None and constant < bits:
            self.put(f"{self.local(it.name)} = mul {it.type} {self.number(it.operands[0])}, {signed(1 << constant, bits)}")
        elif it.kind == "urem" and plain and constant and constant & (constant - 1) == 0:
            self.put(f"{self.local(it.name)} = and {it.type} {self.number(it.operands[0])}, {constant - 1}")
        elif it.kind == "urem" and constant and not is_wide(it.type) and constant >> bits == 0:
            self.any(self.local(it.name), it.type)
            self.guard(it, constant)
        elif it.kind == "lshr" and constant and not is_wide(it.type) and constant < bits:
            self.put(f"{self.local(it.name)} = and {it.type} {self.any_of(it.type)}, {(1 << (bits - constant)) - 1}")
        else:
            self.any(self.local(it.name), number(it.type))

    def guard(self, it, limit):
        """Goes on only where a number is below a limit. In what the text means it always is."""
        test, inside, out = self.fresh(), self.fresh(), self.fresh()
        self.put(f"{test} = icmp ult {it.type} {self.local(it.name)}, {signed(limit, ir.width(it.type))}")
        self.put(f"br i1 {test}, label {inside}, label {out}")
        self.lines += [f"{out[1:]}:", "  unreachable", f"{inside[1:]}:"]
        self.end = inside

    def one(self, it):
        operand = it.operands[0]
        if it.kind == "freeze" and ir.is_pointer(it.type):
            self.put(f"{self.local(it.name)} = bitcast {self.typed(operand)} to {number_type(it.type)}")
        elif it.kind == "fneg" and it.type in FORMATS and self.is_plain(operand):
            bits = ir.width(number(it.type))
            self.put(f"{self.local(it.name)} = xor {self.typed(operand)}, {signed(1 << (bits - 1), bits)}")
        elif number(it.type):
            self.any(self.local(it.name), number(it.type))
        else:
            raise Left

    def cast(self, it):
        operand = it.operands[0]
        if it.kind == "bitcast" and ir.is_pointer(it.type) and ir.is_pointer(operand.type):
            self.put(f"{self.local(it.name)} = bitcast {self.typed(operand)} to {number_type(it.type)}")
        elif it.kind in ("inttoptr", "addrspacecast") or it.kind == "ptrtoint" and not self.is_data(operand) or not number(it.type):
            raise Left
        elif it.kind in ("zext", "sext", "trunc", "bitcast") and self.is_plain(operand) and not is_wide(it.type):
            if it.kind == "bitcast":
                self.put(f"{self.local(it.name)} = or {self.typed(operand)}, 0")
            else:
                self.put(f"{self.local(it.name)} = {it.kind} {self.typed(operand)} to {it.type}")
        else:
            self.any(self.local(it.name), number(it.type))

    def compare(self, it):
        first, second = it.operands
        pointers = ir.is_pointer(first.type)
        if it.kind == "icmp" and pointers and not self.is_data(first) and not self.is_data(second):
            self.put(f"{self.local(it.name)} = icmp {it.condition} {self.typed(first)}, {self.pointer(second)}")
        elif it.kind == "icmp" and not pointers and self.is_plain(first) and self.is_plain(second):
            self.put(f"{self.local(it.name)} = icmp {it.condition} {self.typed(first)}, {self.number(second)}")
        elif it.type == "i1":
            self.any(self.local(it.name), "i1")
        else:
            raise Left

    def select(self, it):
        if ir.is_pointer(it.type) or all(map(self.is_plain, it.operands)):
            if not self.is_plain(it.operands[0]):
                raise Left
            first, second = self.typed(it.operands[1]), self.typed(it.operands[2])
            self.put(f"{self.local(it.name)} = select {self.typed(it.operands[0])}, {first}, {second}")
        elif number(it.type):
            self.any(self.local(it.name), number(it.type))
        else:
            raise Left

    def phi(self, it):
        try:
            values = [self.pointer(operand) if ir.is_pointer(it.type) else self.number(operand) for operand in it.operands]
        except Left:
            if not number(it.type):
                raise
            self.late.append(it)
            return
        ways = ", ".join(f"[ {value}, \0{label}\0 ]" for value, label in zip(values, it.labels))
        self.put(f"{self.local(it.name)} = phi {number_type(it.type)} {ways}")

    def load(self, it):
        place = it.operands[0]
        if self.is_data(place):
            if not number(it.type):
                raise Left
            self.any(self.local(it.name), number(it.type))
        elif "volatile" in it.words and number(it.type):
            self.put(f"{self.fresh()} = load {number_type(it.type)}, {self.typed(place)}")
            self.any(self.local(it.name), number(it.type))
        elif number(it.type) or ir.is_pointer(it.type):
            self.put(f"{self.local(it.name)} = load {number_type(it.type)}, {self.typed(place)}")
        else:
            raise Left

    def store(self, it):
        value, place = it.operands
        is_bundle = (self.f.name, value.value) in self.data.bundles or self.data.has_numbers_only(value.type)
        if self.is_data(place):
            if not (number(value.type) or is_bundle or self.is_data(value) or value.value in ("null", "undef", "zeroinitializer")):
                raise Left
            self.w.told["gone"] += 1
            return
        place = self.typed(place)
        try:
            what = self.typed(value)
        except Left:
            if not number(value.type):
                raise
            what = f"{number(value.type)} {self.any_of(number(value.type))}"
        self.put(f"store {what}, {place}")

    def alloca(self, it):
        if it.operands or not (number(it.type) or ir.is_pointer(it.type)):
            raise Left
        self.put(f"{self.local(it.name)} = alloca {number_type(it.type)}")

    def getelementptr(self, it):
        indices = [self.typed(operand) for operand in it.operands[1:] if not is_wide(operand.type)]
        if len(indices) + 1 < len(it.operands) or not all(ir.width(operand.type) for operand in it.operands[1:]):
            raise Left
        self.put(f"{self.local(it.name)} = getelementptr {number_type(it.type)}, {', '.join([self.typed(it.operands[0]), *indices])}")

    def call(self, it):
        if GONE.match(it.callee):
            self.w.told["gone"] += 1
        elif NUMBERS.match(it.callee):
            self.intrinsic(it)
        elif it.callee in self.m.functions or KEPT.match(it.callee):
            self.own_call(it)
        elif self.data.is_foreign(it) and not self.data.keeps_call(self.f.name, it):
            if number(it.type) and it.name:
                self.any(self.local(it.name), number(it.type))
            self.w.told["gone"] += 1
        else:
            raise Left

    def own_call(self, it):
        """A call of a function of the module or of the runtime: without what leads to data."""
        known, given = self.m.functions.get(it.callee), []
        for at, operand in enumerate(it.operands):
            if known and at < len(known.parameters) and (known.name, known.parameters[at].value) in self.data.values:
                continue
            if IN_MEMORY & set(it.words[at]):
                raise Left
            given.append(self.typed(operand))
        if known and (len(it.operands) != len(known.parameters) or any(of_type == "..." for of_type, _ in known.parameters)):
            raise Left
        gives_data = known and self.data.gives_data(known.name)
        result = "void" if gives_data or it.type == "void" else number_type(it.type)
        if result != "void" and not (number(it.type) or ir.is_pointer(it.type)):
            raise Left
        self.put(f"{self.local(it.name) + ' = ' if it.name and result != 'void' else ''}call {result} {it.callee}({', '.join(given)})")

    def intrinsic(self, it):
        """A function of LLVM on numbers alone."""
        name = it.callee.split(".")[1]
        if not number(it.type):
            raise Left
        if name in CHOICES and all(map(self.is_plain, it.operands)):
            test, first, second = self.fresh(), self.typed(it.operands[0]), self.typed(it.operands[1])
            self.put(f"{test} = icmp {CHOICES[name]} {first}, {self.number(it.operands[1])}")
            self.put(f"{self.local(it.name)} = select i1 {test}, {first}, {second}")
            limits = [int(operand.value) + 1 for operand in it.operands if re.match(r"\d+$", operand.value)]
            if name == "umin" and limits and limits[0] >> ir.width(it.type) == 0:
                self.guard(it, limits[0])
        elif name == "fabs" and it.type in FORMATS and self.is_plain(it.operands[0]):
            bits = ir.width(number(it.type))
            self.put(f"{self.local(it.name)} = and {self.typed(it.operands[0])}, {(1 << (bits - 1)) - 1}")
        elif it.name:
            self.any(self.local(it.name), number(it.type))

    def atomicrmw(self, it):
        value, place = it.operands
        if not number(it.type):
            raise Left
        to = None if self.is_data(place) else self.typed(place)
        if it.name:
            self.any(self.local(it.name), number(it.type))
        if to:
            new = self.number(value) if it.operation == "xchg" and self.is_plain(value) else self.any_of(number(it.type))
            self.put(f"store {number(it.type)} {new}, {to}")

    def cmpxchg(self, it):
        value, place = it.operands[:2]
        if not number(value.type):
            raise Left
        if not self.is_data(place):
            to = self.typed(place)
            self.put(f"store {number(value.type)} {self.any_of(number(value.type))}, {to}")

    def tuple(self, it):
        """A number out of a bundle."""
        base = it.operands[0]
        found = number(self.data.made(it))
        if it.kind not in ("extractvalue", "extractelement") or not found or (self.f.name, base.value) not in self.data.bundles:
            raise Left
        self.any(self.local(it.name), found)

    def br(self, it):
        if it.operands and not self.is_plain(it.operands[0]):
            raise Left
        on = f"{self.typed(it.operands[0])}, " if it.operands else ""
        self.put(f"br {on}" + ", ".join(f"label {self.local(label)}" for label in it.labels))

    def switch(self, it):
        if not self.is_plain(it.operands[0]):
            raise Left
        cases = " ".join(f"{self.typed(case)}, label {self.local(label)}" for case, label in zip(it.cases, it.labels[1:]))
        self.put(f"switch {self.typed(it.operands[0])}, label {self.local(it.labels[0])} [ {cases} ]")

    def ret(self, it):
        if not it.operands or self.data.gives_data(self.f.name):
            self.put("ret void")
            return
        try:
            self.put(f"ret {self.typed(it.operands[0])}")
        except Left:
            if not number(it.type) or (self.f.name, it.operands[0].value) in self.data.bundles:
                raise
            self.put(f"ret {number(it.type)} {self.any_of(number(it.type))}")

    def unreachable(self, it):
        self.put("unreachable")

    def fence(self, it):
        self.w.told["gone"] += 1

    def write(self, it):
        """Writes what becomes of an instruction."""
        key = (self.f.name, it.name)
        if key in self.data.values and not (it.kind == "call" and it.callee in self.m.functions):
            self.w.told["gone"] += 1
            return
        if key in self.data.bundles and it.kind != "cmpxchg":
            self.w.told["gone"] += 1
            return
        kinds = {"icmp": self.compare, "fcmp": self.compare} | {kind: self.binary for kind in ir.BINARY} | {kind: self.cast for kind in ir.CASTS}
        kinds |= {kind: self.one for kind in ir.ONE_OPERAND} | {kind: self.tuple for kind in ir.TUPLES}
        mark, anys = len(self.lines), self.w.told["any number"]
        try:
            if it.kind == "other":
                raise Left
            (kinds.get(it.kind) or getattr(self, it.kind))(it)
        except Left:
            del self.lines[mark:]
            self.w.told["any number"] = anys
            self.put(it.text)
            self.w.left.append(f"line {it.line}: {it.text}")

    def block(self, label, body):
        self.end = self.local(label)
        self.lines.append(f"{self.end[1:]}:")
        phis = [it for it in body if it.kind == "phi"]
        for it in phis:
            self.write(it)
        for it in self.late:
            self.any(self.local(it.name), number(it.type))
        self.late = []
        for it in body:
            if it.kind != "phi":
                self.write(it)
        self.ends[label] = self.end

    def head(self):
        given = []
        for (of_type, name), words in zip(self.f.parameters, self.f.words):
            if (self.f.name, name) in self.data.values:
                continue
            in_memory = "".join(f" {word}" for word in words if word in IN_MEMORY)
            given.append("..." if of_type == "..." else f"{number_type(of_type)}{in_memory} {self.local(name)}")
        result = "void" if self.data.gives_data(self.f.name) else number_type(self.f.result)
        linkage = f"{self.f.linkage} " if self.f.linkage else ""
        gc = f" gc {self.f.gc}" if self.f.gc else ""
        return f"define {linkage}{result} {self.f.name}({', '.join(given)}){gc} {{"

    def text(self):
        for label, body in self.f.blocks:
            self.block(label, body)
        lines = [re.sub("\0(.*?)\0", lambda found: self.ends.get(found[1], self.local(found[1])), line) for line in self.lines]
        return "\n".join([self.head(), *lines, "}"])


def signed(value, bits):
    """A number as LLVM takes it: within the signed numbers of its width."""
    return value - (1 << bits) if value >> (bits - 1) else value


def main():
    parser = argparse.ArgumentParser(description=__doc__.split("\n")[0])
    parser.add_argument("text", metavar="MODULE.ll")
    options = parser.parse_args()
    try:
        with open(options.text, encoding="utf-8") as file:
            whole = Abstraction(ir.read(file.read()))
        text = whole.text()
    except OSError as error:
        sys.exit(f"abstract.py: {options.text}: {error.strerror}")
    except (ir.Fault, UnicodeDecodeError) as fault:
        sys.exit(f"abstract.py: {options.text}: {fault}")
    print(f"abstract.py: any number {whole.told['any number']}, gone {whole.told['gone']}, left as they are {len(whole.left)}", file=sys.stderr)
    print("".join(f"    {line}\n" for line in whole.left), end="", file=sys.stderr)
    sys.stdout.write(text)


if __name__ == "__main__":
    main()
