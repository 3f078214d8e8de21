#!/usr/bin/env python3
"""Writes byte offsets into known structs as fields again, in what clang prints with opaque pointers after optimisation.

    fields.py PLAIN.ll OPTIMISED.ll > OUT.ll

Both are of one program: PLAIN.ll without passes, OPTIMISED.ll after any. PLAIN.ll has the structs, and its getelementptrs name them.
So it tells which struct each parameter, result, word and global refers to. With that the struct of each reference in OPTIMISED.ll is
found, as shapes.py does. Then

    %p = getelementptr inbounds nuw i8, ptr %text, i64 8         becomes  %p = getelementptr %struct.text, ptr %text, i64 0, i32 1, i64 0
    %q = getelementptr inbounds nuw i64, ptr %p, i64 %i          becomes  %q = getelementptr %struct.text, ptr %text, i64 0, i32 1, i64 %i

The new address is the same as the old one, whatever struct is found. One is left as it is where no struct is found, where its bytes
are no word of the struct, or where an index is added to another one. OUT.ll has the structs of PLAIN.ll too.

Says to standard error how many byte offsets there were and how many were written as fields, and the same of other getelementptrs
that do not begin at a struct. Ends with status 1 and one line where it cannot read a text.
"""
import argparse
import collections
import re
import sys

from gcroot import is_opaque, plain_text
from shapes import Body, Module, parts

GEP = re.compile(r"( *)(%\S+) = getelementptr (?:inbounds |nuw |nusw )*(.*)$")
BY_STRUCT = re.compile(r"%struct\.\w+, ptr \S+, i\d+ 0,")
BYTES = re.compile(r"= getelementptr (?:inbounds |nuw |nusw )*i8, ptr \S+, i\d+ -?\d+$")

# Where an address lies: from a reference by indices into its struct, and then some bytes into the type that they reach.
Address = collections.namedtuple("Address", "base struct indices kind offset")


class Sizes:
    """Where the fields of types begin, in bytes."""

    def __init__(self, structs):
        self.structs = structs

    def fields(self, kind):
        """The fields of a struct, each with its first byte."""
        at, found = 0, []
        for field in parts(self.structs.get(kind, kind)[1:-1]):
            align = self.align(field)
            at += -at % align
            found.append((at, field))
            at += self.size(field)
        return found

    def is_struct(self, kind):
        return kind in self.structs or kind.startswith("{")

    def size(self, kind):
        if self.is_struct(kind):
            fields = self.fields(kind)
            end = fields[-1][0] + self.size(fields[-1][1]) if fields else 0
            return end + -end % self.align(kind)
        array = array_of(kind)
        return array[0] * self.size(array[1]) if array else scalar_size(kind)

    def align(self, kind):
        if self.is_struct(kind):
            return max([self.align(field) for _, field in self.fields(kind)], default=1)
        array = array_of(kind)
        return self.align(array[1]) if array else scalar_size(kind)

    def inner(self, kind, offset):
        """The part in which a byte lies: its index, its type, and how far into it the byte is."""
        if self.is_struct(kind):
            for number, (start, field) in enumerate(self.fields(kind)):
                if start <= offset < start + self.size(field):
                    return f"i32 {number}", field, offset - start
        elif array := array_of(kind):
            size = self.size(array[1])
            if 0 <= offset < array[0] * size:
                return f"i64 {offset // size}", array[1], offset % size
        return None

    def word(self, kind, offset):
        """The indices from a type to the word that begins at a byte."""
        if not self.is_struct(kind) and not array_of(kind):
            return [] if offset == 0 else None
        found = self.inner(kind, offset)
        rest = self.word(*found[1:]) if found else None
        return None if rest is None else [found[0], *rest]

    def element(self, kind, offset, size):
        """The indices from a type to the array that begins at a byte and has elements of a size; and the type of these."""
        array = array_of(kind)
        if array and offset == 0 and self.size(array[1]) == size:
            return [], array[1]
        found = self.inner(kind, offset)
        rest = self.element(*found[1:], size) if found else None
        return ([found[0], *rest[0]], rest[1]) if rest else None


def array_of(kind):
    """The length of an array and its elements' type."""
    found = re.match(r"\[\s*(\d+) x (.*)\]$", kind)
    return (int(found[1]), found[2]) if found else None


def scalar_size(kind):
    """The bytes of a number or a pointer, and what its place is a multiple of."""
    bits = {"ptr": 64, "double": 64, "float": 32}.get(kind) or (int(kind[1:]) if re.match(r"i\d+$", kind) else 0)
    if bits == 0:
        sys.exit(f"fields.py: a field of type {kind}")
    return max(1, 1 << (bits - 1).bit_length() >> 3)


class Plain(Body):
    """What a function does without passes. Only its parameters have the names that they have in the optimised text."""

    def value(self, name):
        if name.startswith("%") and name not in self.m.parameters[self.name]:
            return ("plain", self.name, name)
        return super().value(name)

    def call(self, made, callee, arguments):
        learn_claim(self, made, callee)
        super().call(made, callee, arguments)


def learn_claim(body, made, callee):
    """A call of new_NAME makes a cell of the struct NAME."""
    if made and callee.startswith("@new_") and f"%struct.{callee[5:]}" in body.m.structs:
        body.m.learn(body.value(made), f"%struct.{callee[5:]}")


class Optimised(Body):
    """What a function does after passes, and its addresses."""

    def __init__(self, module, name, body, sizes):
        super().__init__(module, name, body)
        self.sizes, self.addresses = sizes, {}

    def call(self, made, callee, arguments):
        learn_claim(self, made, callee)
        super().call(made, callee, arguments)

    def element(self, made, written, base, indices):
        if written in self.m.structs and base not in self.places:
            self.m.learn(self.value(base), written)
        address = self.address_of(written, base, indices)
        word = address and self.sizes.word(address.kind, address.offset)
        if word is None:
            return
        self.addresses[made] = address
        values = [index.split()[-1] for index in address.indices + word]
        self.places[made] = (address.struct, self.m.reached(address.struct, values))

    def start(self, base):
        """The address that a getelementptr begins with."""
        if base in self.addresses:
            return self.addresses[base]
        found = self.m.known.get(self.m.first(self.value(base)), set())
        if base.startswith("@") or base == "null" or len(found) != 1:
            return None
        struct = next(iter(found))
        return Address(base, struct, ["i64 0"], struct, 0)

    def address_of(self, written, base, indices):
        """The address that a getelementptr of this type makes."""
        address, kind = self.start(base), f"[0 x {written}]"
        for index in indices:
            if address is None:
                return None
            if self.sizes.is_struct(kind):
                start, kind = self.sizes.fields(kind)[int(index)]
                address = address._replace(offset=address.offset + start)
                continue
            kind = array_of(kind)[1]
            if re.match(r"-?\d+$", index):
                address = address._replace(offset=address.offset + int(index) * self.sizes.size(kind))
            else:
                address = self.indexed(address, index, self.sizes.size(kind))
        return address

    def indexed(self, address, index, size):
        """The element of an array at an address that a register tells."""
        found = self.sizes.element(address.kind, address.offset, size)
        if not found:
            return None
        return address._replace(indices=[*address.indices, *found[0], f"i64 {index}"], kind=found[1], offset=0)

    def line_of(self, name):
        """The getelementptr of a name, by fields."""
        address = self.addresses[name]
        path = address.indices + self.sizes.word(address.kind, address.offset)
        return f"{name} = getelementptr {address.struct}, ptr {address.base}, " + ", ".join(path) if len(path) > 1 else None


def flowed(plain, optimised):
    """The bodies of the optimised functions, by name, where the structs of references are found."""
    module = Module(plain)
    sizes, texts = Sizes(module.structs), Module(optimised)
    bodies = [Plain(module, name, body) for name, _, body in module.functions]
    found = [Optimised(module, name, body, sizes) for name, _, body in texts.functions]
    module.parameters.update(texts.parameters)
    before = None
    while before != (len(module.same), sum(map(len, module.known.values())), sum(len(body.addresses) for body in found)):
        before = len(module.same), sum(map(len, module.known.values())), sum(len(body.addresses) for body in found)
        for body in bodies + found:
            for line in body.lines:
                body.read(line)
    return module, {body.name: body for body in found}


def written(line, body):
    """A line of a function, and what became of it: the kind of getelementptr, and whether it was written by fields."""
    found = GEP.match(line)
    if not found or BY_STRUCT.match(found[3]):
        return line, None
    kind = "byte offsets" if BYTES.search(re.sub(r", ![\w.]+ ![\w.]+|;.*", "", line).strip()) else "others"
    new = body.line_of(found[2]) if found[2] in body.addresses else None
    return (found[1] + new if new else line), (kind, bool(new))


def with_structs(text, structs):
    """A text with these structs before all else, in place of its own."""
    lines = [line for line in text.split("\n") if not re.match(r"%\S+ = type ", line)]
    at = next((at for at, line in enumerate(lines) if re.match(r"[@%]|define |declare ", line)), len(lines))
    return "\n".join(lines[:at] + [f"{name} = type {kind}" for name, kind in structs.items()] + lines[at:])


def rewritten(plain, optimised):
    """The optimised text by fields; and how often what became of a getelementptr."""
    module, bodies = flowed(plain_text(plain), plain_text(optimised))
    lines, told, body = [], collections.Counter(), None
    for line in optimised.split("\n"):
        head = re.match(r"define .*?(@[-\w.$]+)\(", line)
        body = bodies.get(head[1]) if head else body
        line, became = written(line, body) if body else (line, None)
        told[became] += 1
        lines.append(line)
    return with_structs("\n".join(lines), module.structs), told


def text_of(path):
    try:
        with open(path, encoding="utf-8") as file:
            text = file.read()
    except OSError as error:
        sys.exit(f"fields.py: {path}: {error.strerror}")
    if re.search(r'^target datalayout = "[^"]*-p:32', text, re.M):
        sys.exit(f"fields.py: {path}: its pointers have 32 bits")
    if not is_opaque(text):
        sys.exit(f"fields.py: {path}: it has no opaque pointers")
    return text


def main():
    parser = argparse.ArgumentParser(description=__doc__.split("\n")[0])
    parser.add_argument("plain", metavar="PLAIN.ll")
    parser.add_argument("optimised", metavar="OPTIMISED.ll")
    options = parser.parse_args()
    text, told = rewritten(text_of(options.plain), text_of(options.optimised))
    for kind in ("byte offsets", "others"):
        print(f"{kind} {told[kind, True] + told[kind, False]}, by fields {told[kind, True]}", file=sys.stderr)
    sys.stdout.write(text)


if __name__ == "__main__":
    main()
