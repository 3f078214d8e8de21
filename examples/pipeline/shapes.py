#!/usr/bin/env python3
"""Writes the shapes of a module with opaque pointers, from what its code does with them.

    shapes.py MODULE.ll > MODULE.shapes

A value is of the struct whose dg_alloc makes it, or whose fields a getelementptr reaches from it. What is loaded, stored, chosen,
compared, passed or returned together is of one struct. So each word, global and root slot of type ptr gets the struct of the values
that it holds, or the first struct where nothing is known of them. dgc does not trust the answer: `check` decides with it.

Ends with status 1 and one line where a word, a global or a slot holds values of two structs.
"""
import argparse
import re
import sys

NAME = r'%(?:[-\w.$]+|"[^"]*")'
GLOBAL = r'@(?:[-\w.$]+|"[^"]*")'
VALUE = rf"(?:{NAME}|{GLOBAL}|null)"


def parts(text):
    """The parts of a list, at its commas."""
    found, depth, part = [], 0, ""
    for sign in text:
        depth += sign in "[{(<"
        depth -= sign in "]})>"
        if sign == "," and depth == 0:
            found.append(part.strip())
            part = ""
        else:
            part += sign
    return found + [part.strip()] if part.strip() else found


class Module:
    def __init__(self, text):
        self.structs = dict(re.findall(rf"^({NAME}) = type (\{{.*\}})$", text, re.M))
        self.layouts = list(self.structs)
        self.globals = re.findall(rf"^({GLOBAL}) = (?:[\w()]+ )*?(?:global|constant) ptr null", text, re.M)
        self.functions = re.findall(rf"^define \S+ ({GLOBAL})\((.*?)\)[^\n]*\{{\n(.*?)^\}}", text, re.M | re.S)
        self.parameters = {name: [part.split()[-1] for part in parts(given)] for name, given, _ in self.functions}
        self.same, self.known = {}, {}

    # What is one struct, as classes.
    def first(self, key):
        while key in self.same:
            key = self.same[key]
        return key

    def join(self, one, other):
        one, other = self.first(one), self.first(other)
        if one != other:
            self.same[one] = other
            self.known.setdefault(other, set()).update(self.known.pop(one, set()))

    def learn(self, key, struct):
        self.known.setdefault(self.first(key), set()).add(struct)

    # Words.
    def words(self, written):
        """The scalar types in a type."""
        written = written.strip()
        if written in self.structs:
            return self.words(self.structs[written])
        if written.startswith("{"):
            return [word for part in parts(written[1:-1]) for word in self.words(part)]
        array = re.match(r"\[\s*(\d+) x (.*)\]$", written)
        return self.words(array[2]) * int(array[1]) if array else [written]

    def reached(self, written, indices):
        """The words that the indices of a getelementptr reach, from the first one of its type on."""
        step = len(self.words(written))
        starts = [int(indices[0]) * step] if re.match(r"\d+$", indices[0]) else [0]
        for index in indices[1:]:
            written = self.structs.get(written, written)
            if written.startswith("{"):
                fields = parts(written[1:-1])
                before = sum(len(self.words(field)) for field in fields[:int(index)])
                starts, written = [start + before for start in starts], fields[int(index)]
            else:
                count, written = re.match(r"\[\s*(\d+) x (.*)\]$", written).groups()
                step = len(self.words(written))
                turns = [int(index)] if re.match(r"\d+$", index) else range(int(count))
                starts = [start + turn * step for start in starts for turn in turns]
        return starts


class Body:
    """What a function does with pointers."""

    def __init__(self, module, name, body):
        self.m, self.name = module, name
        self.lines = [line.strip() for line in body.split("\n")]
        self.places, self.slots, self.roots = {}, set(), []

    def value(self, name):
        return ("global's place", name) if name.startswith("@") else ("value", self.name, name)

    def join(self, one, other):
        if "null" not in (one, other):
            self.m.join(self.value(one), self.value(other))

    def hold(self, place, value):
        """A place holds a value, or gives it."""
        if value == "null":
            return
        if place.startswith("@"):
            self.m.join(("global", place), self.value(value))
        elif place in self.slots:
            self.m.join(("slot", self.name, place), self.value(value))
        elif place in self.places:
            struct, words = self.places[place]
            for word in words:
                self.m.join(("word", struct, word), self.value(value))
        else:
            for struct in self.m.known.get(self.m.first(self.value(place)), set()).copy():
                self.m.join(("word", struct, 0), self.value(value))

    def element(self, made, written, base, indices):
        if base in self.places:
            struct, starts = self.places[base]
            self.places[made] = (struct, [start + word for start in starts for word in self.m.reached(written, indices)])
        elif written in self.m.structs and base != "null":
            self.m.learn(self.value(base), written)
            self.places[made] = (written, self.m.reached(written, indices))

    def call(self, made, callee, arguments):
        values = [argument.split()[-1] for argument in arguments]
        if callee == "@dg_alloc":
            self.m.learn(self.value(made), self.m.layouts[int(values[0])])
        elif callee == "@llvm.gcroot":
            self.roots.append(values[0])
        elif callee == "@llvm.gcwrite":
            self.hold(values[2], values[0])
        elif callee == "@llvm.gcread":
            self.hold(values[1], made)
        elif callee in self.m.parameters:
            for argument, value, parameter in zip(arguments, values, self.m.parameters[callee]):
                if argument.startswith("ptr") and value != "null":
                    self.m.join(self.value(value), ("value", callee, parameter))
            if made:
                self.m.join(self.value(made), ("result", callee))

    def read(self, line):
        made, _, rest = line.partition(" = ") if re.match(rf"{NAME} = ", line) else (None, "", line)
        if re.match(r"alloca ptr(, align \d+)?$", rest):
            self.slots.add(made)
        elif found := re.match(rf"load ptr, ptr ({VALUE})", rest):
            self.hold(found[1], made)
        elif found := re.match(rf"store ptr ({VALUE}), ptr ({VALUE})", rest):
            self.hold(found[2], found[1])
        elif found := re.match(r"getelementptr (?:inbounds |nuw |nusw )*(.*)", rest):
            given = parts(found[1])
            self.element(made, given[0], given[1].split()[-1], [index.split()[-1] for index in given[2:]])
        elif rest.startswith("phi ptr"):
            for value in re.findall(rf"\[ ({VALUE}),", rest):
                self.join(made, value)
        elif found := re.match(rf"select i1 [^,]+, ptr ({VALUE}), ptr ({VALUE})", rest):
            self.join(made, found[1])
            self.join(made, found[2])
        elif found := re.match(rf"icmp \w+ ptr ({VALUE}), ({VALUE})", rest):
            self.join(found[1], found[2])
        elif found := re.match(rf"bitcast ptr ({VALUE}) to ptr", rest):
            self.same(made, found[1])
        elif found := re.match(rf"call \S+ (?:\([^()]*\) )?({GLOBAL})\((.*)\)", rest):
            self.call(made, found[1], parts(found[2]))
        elif (found := re.match(rf"ret ptr ({VALUE})", rest)) and found[1] != "null":
            self.m.join(self.value(found[1]), ("result", self.name))

    def same(self, made, value):
        """A name for what another one names."""
        if value in self.places:
            self.places[made] = self.places[value]
        elif value in self.slots:
            self.slots.add(made)
            self.m.join(("slot", self.name, made), ("slot", self.name, value))
        else:
            self.join(made, value)


def struct_of(module, key, what):
    """The struct of the values that are held there; the first struct where nothing is known of them."""
    found = sorted(module.known.get(module.first(key), set()))
    if len(found) > 1:
        sys.exit(f"shapes.py: {what} holds values of " + " and of ".join(found))
    if not found and not module.layouts:
        sys.exit(f"shapes.py: {what} holds references, and the module has no struct")
    return (found or module.layouts)[0][1:]


def shapes_of(text):
    """The lines of the shapes."""
    module = Module(text)
    bodies = [Body(module, name, body) for name, _, body in module.functions]
    before = None
    while before != (len(module.same), sum(map(len, module.known.values()))):
        before = len(module.same), sum(map(len, module.known.values()))
        for body in bodies:
            body.roots = []
            for line in body.lines:
                body.read(line)
    yield "shapes 1"
    for struct in module.layouts:
        for word, written in enumerate(module.words(struct)):
            if written == "ptr":
                yield f"layout {struct[1:]} {word} ref {struct_of(module, ('word', struct, word), f'word {word} of {struct}')}"
    for name in module.globals:
        yield f"global {name} ref {struct_of(module, ('global', name), name)}"
    for body in bodies:
        for root in body.roots:
            yield f"root {body.name} {root} ref {struct_of(module, ('slot', body.name, root), f'{root} of {body.name}')}"


def main():
    parser = argparse.ArgumentParser(description=__doc__.split("\n")[0])
    parser.add_argument("text", metavar="MODULE.ll")
    options = parser.parse_args()
    try:
        with open(options.text, encoding="utf-8") as file:
            text = file.read()
    except OSError as error:
        sys.exit(f"shapes.py: {options.text}: {error.strerror}")
    print("\n".join(shapes_of(text)))


if __name__ == "__main__":
    main()
