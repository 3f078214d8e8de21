"""Leaves a barrier or a root out of gcroot code that is accepted, and looks whether `dgc make` says no.

- A barrier: a `gcwrite` becomes a plain store. It is one whose cell was known before a safepoint, so that it is not fresh: its reference
  is loaded from a root slot again; or one of a global.
- A root: the slot goes, and each load from it gives the reference that was in the register before.
The code is that of examples/pipeline/gcroot.py, whose slots are named `%x.root`, and the loads from them `%x.1x`.
"""
import collections
import os
import re
import subprocess
import sys

from make import HERE

sys.path.insert(0, os.path.join(HERE, "..", "examples", "pipeline"))
from gcroot import is_opaque
from shapes import shapes_of

NAME = r"%[-\w.$]+"
WRITE = re.compile(rf"  call void @llvm\.gcwrite\((?:ptr|i8\*) ({NAME}|null), (?:ptr|i8\*) ({NAME}|null), (?:ptr|i8\*\*) (.*)\)$")
RELOAD = re.compile(rf"  ({NAME}) = load [^,]+, \S+ ({NAME})\.root$")
CAST = re.compile(rf"  ({NAME}) = bitcast (\S+) ({NAME}) to i8\*+$")
KINDS = ["barrier", "root"]


class Body:
    """The lines of one function, and where its names are made."""

    def __init__(self, text):
        self.lines = text.split("\n")
        self.made = {found[1]: line for line in self.lines if (found := re.match(rf"  ({NAME}) = ", line))}

    def uncast(self, name):
        """What a name is of which another one is a bitcast, with its type."""
        found = CAST.match(self.made.get(name, ""))
        return (found[2], found[3]) if found else ("ptr", name)

    def store(self, line):
        """The plain store in place of a barrier of a cell that is not fresh, or None."""
        found = WRITE.match(line)
        if not found:
            return None
        value, owner, place = found.groups()
        is_known = re.match(r"@|bitcast \(", place) or RELOAD.match(self.made.get(self.uncast(owner)[1], ""))
        if not is_known:
            return None
        cast = re.match(r"bitcast \((\S+) (@\S+) to i8\*\*\)$", place)
        kind, place = cast.groups() if cast else self.uncast(place)
        return f"  store {kind if kind == 'ptr' else kind[:-1]} {self.uncast(value)[1]}, {kind} {place}"


def without_barrier(text):
    """The text of a function with one barrier less, and the line that went; None where it has none."""
    body = Body(text)
    for at, line in enumerate(body.lines):
        store = body.store(line)
        if store:
            return "\n".join([*body.lines[:at], store, *body.lines[at + 1:]]), line.strip()
    return None


def without_root(text):
    """The text of a function with one root less, and the name of its slot; None where it has none."""
    slots = [found[2] for line in text.split("\n") if (found := RELOAD.match(line))]
    if not slots:
        return None
    name = slots[0]
    names = [found[1] for line in text.split("\n") if (found := RELOAD.match(line)) and found[2] == name]
    kept = [line for line in text.split("\n") if not re.search(rf"{re.escape(name)}\.root(\.place)?(?![-\w.$])", line)]
    return re.sub("|".join(rf"{re.escape(each)}(?![-\w.$])" for each in names), name, "\n".join(kept)), name + ".root"


def left_out(module, kind):
    """The module with one thing less, and where; None where there is none that can be left out."""
    for found in re.finditer(r"^define [^\n]*@([\w.$]+)\([^\n]*\{\n.*?^\}", module, re.M | re.S):
        changed = (without_barrier if kind == "barrier" else without_root)(found[0])
        if changed:
            return module[:found.start()] + changed[0] + module[found.end():], f"@{found[1]}: {changed[1]}"
    return None


def said_of(dgc, base, module):
    """What `make` says of a module: `made`, or the line of the refusal."""
    with open(base + ".ll", "w") as out:
        out.write(module)
    words = [dgc, "make", base + ".ll", "--forms", "wide", "--why"]
    if is_opaque(module):
        with open(base + ".shapes", "w") as out:
            out.write("\n".join([*shapes_of(module), ""]))
        words += ["--shapes", base + ".shapes"]
    done = subprocess.run(words, capture_output=True, text=True)
    return "made" if done.returncode == 0 else done.stderr.strip().split("\n")[-1]


def tried(options, accepted):
    """Leaves a barrier and a root out in turn, of programs that follow one another, and gives what is not found."""
    missed, told, seen = [], collections.Counter(), set()
    for each in sorted(accepted, key=lambda each: each.level.name != "-O0, mem2reg"):
        count = sum(told.values())
        if count == options.left_out:
            break
        kind = KINDS[count % len(KINDS)]
        with open(each.base + ".ll") as module:
            changed = each.program not in seen and left_out(module.read(), kind)
        if changed:
            seen.add(each.program)
            said = said_of(options.dgc, each.base + ".left", changed[0])
            told[kind] += 1
            print(f"    clang-{each.version} {each.level.name} {each.program}: {kind} left out of {changed[1]}: {said}")
            if not re.match(r"no @.* K\d+", said):
                missed.append(f"{each.program}: {kind} left out of {changed[1]}: {said}")
    print(f"{sum(told.values())} with something left out ({', '.join(f'{kind} {count}' for kind, count in told.items())}), {len(missed)} not found")
    return missed
