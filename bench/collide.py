#!/usr/bin/env python3
"""Times `dgc` on names and numbers that are chosen to collide, beside others.

    collide.py DGC [--names N ..] [--runs R] [--only WORD ..]

Names are chosen in two ways. `fixed`: they collide in the kit's hasher, whose seed is fixed. `aimed`: they collide by the key of the
same text with other names, which is what somebody finds who knows how a text gives its key, but has to write the names into the text.
In an edit they are aimed at the key of the module, which its reader knows. Prints the least processor time of R runs for N others and
for each choice, and ends with 1 where a choice takes more than twice the time of the others. collide.c finds the names: for 9,000 in
about half a minute each. For use by hand.
"""
import argparse
import os
import random
import subprocess
import sys
import tempfile

from cases import Case, Runner

HERE = os.path.dirname(os.path.abspath(__file__))
MOST_SECONDS, MOST_TIMES = 600, 2
LOW = (1 << 64) - 1
ENTRIES_OF_A_GROUP = 9


def rotated(word, by):
    """A word of 64 bits rotated to the left."""
    return (word << by | word >> 64 - by) & LOW


def sip_round(v0, v1, v2, v3):
    """One round of SipHash."""
    v0, v2 = (v0 + v1) & LOW, (v2 + v3) & LOW
    v1, v3 = rotated(v1, 13) ^ v0, rotated(v3, 16) ^ v2
    v0 = rotated(v0, 32)
    v2, v0 = (v2 + v1) & LOW, (v0 + v3) & LOW
    v1, v3 = rotated(v1, 17) ^ v2, rotated(v3, 21) ^ v0
    return v0, v1, rotated(v2, 32), v3


def siphash(data):
    """SipHash-1-3 of bytes, with both keys 0."""
    state = (0x736f6d6570736575, 0x646f72616e646f6d, 0x6c7967656e657261, 0x7465646279746573)
    whole = len(data) // 8 * 8
    words = [int.from_bytes(data[at:at + 8], "little") for at in range(0, whole, 8)]
    for word in [*words, int.from_bytes(data[whole:], "little") | (len(data) & 0xff) << 56]:
        v0, v1, v2, v3 = state
        v0, v1, v2, v3 = sip_round(v0, v1, v2, v3 ^ word)
        state = (v0 ^ word, v1, v2, v3)
    v0, v1, v2, v3 = state
    state = (v0, v1, v2 ^ 0xff, v3)
    for _ in range(3):
        state = sip_round(*state)
    return state[0] ^ state[1] ^ state[2] ^ state[3]


def key_of(text):
    """The key of the tables that a text fills: the point, the factor and the offset."""
    data = text.encode()
    return siphash(data) >> 4, siphash(data + b"\1") >> 3, siphash(data + b"\1\2") >> 3


def others(count):
    """So many names that were not chosen."""
    drawn = random.Random(3)
    first, further = "abcdefghijklmnopqrstuvwxyz", "abcdefghijklmnopqrstuvwxyz012345"
    names = {}
    while len(names) < count:
        names[drawn.choice(first) + "".join(drawn.choice(further) for _ in range(7))] = None
    return list(names)


def body(names):
    """A function with a value of each name."""
    operands = ["%k", *(f"%{name}" for name in names)]
    lines = (f"  %{name} = add i64 {operand}, 1" for name, operand in zip(names, operands))
    return "\n".join(["define i64 @f(i64 %k) {", "entry:", *lines, f"  ret i64 {operands[-1]}", "}", ""])


def functions(names):
    """A function of each name."""
    return "".join(f"define void @{name}() {{\nentry:\n  ret void\n}}\n" for name in names)


def structs(names):
    """A struct of each name."""
    return "".join(f"%{name} = type {{ i64 }}\n" for name in names) + body([])


def cases(numbers):
    """A switch with a case of each number."""
    lines = (f"    i64 {number}, label %on" for number in numbers)
    return "\n".join(["define i64 @f(i64 %k) {", "entry:", "  switch i64 %k, label %on [", *lines, "  ]", "on:", "  ret i64 0", "}", ""])


def sections(names):
    """The certificate of functions that allocate nothing."""
    return "cert 1\n" + "".join(f"function @{name} none\nend\n" for name in names)


def checked(module, names):
    """The words and the files of a check."""
    return ["check", "m.ll", "m.cert"], {"m.ll": module.encode(), "m.cert": sections(names).encode()}


def edited(names):
    """The same of a module of one function, and an edit that gives it a value of each name."""
    files = {"m.ll": body(["one"]), "m.cert": sections("f"), "m.edits": f"edit code @f\n{body(names)}.\n"}
    return ["recheck", "m.ll", "m.cert", "m.edits"], {name: text.encode() for name, text in files.items()}


# what a kind of thing is made of, the command on them, and the text at whose key they are aimed
KINDS = {
    "values": ("names", lambda names: checked(body(names), "f"), body),
    "functions": ("names", lambda names: checked(functions(names), names), functions),
    "structs": ("names", lambda names: checked(structs(names), "f"), structs),
    "values of an edit": ("names", edited, lambda _names: body(["one"])),
    "cases": ("numbers", lambda numbers: checked(cases(numbers), "f"), cases),
}


def chosen(program, what, count, key):
    """So many names or numbers that collide in a table of as many, by a key or by the fixed hasher."""
    groups = -(-count // ENTRIES_OF_A_GROUP)
    words = [str(part) for part in key] if key else ["fixed"]
    run = subprocess.run([program, what, str(count), str((groups - 1).bit_length()), *words], capture_output=True, text=True, check=True)
    return run.stdout.split()


def choices(finder, what, count, aimed_at):
    """The others, and what collides with what."""
    first = others(count) if what == "names" else [str(7 * number) for number in range(count)]
    return {"others": first, "fixed": chosen(finder, what, count, None), "aimed": chosen(finder, what, count, key_of(aimed_at(first)))}


def least_time(runner, runs, words, files):
    """The least processor time of that number of runs. The fault of a certificate that has no block ends one too."""
    case = Case(words, files)
    folder = runner.folder_of(0, case.texts)
    ended = [runner.alone(folder, case) for _ in range(runs)]
    if any(run.signal or run.status > 2 for run in ended):
        sys.exit(f"collide.py: {' '.join(words)} ended so: {ended[0]}")
    return min(run.seconds for run in ended)


def main():
    parser = argparse.ArgumentParser(description=__doc__, formatter_class=argparse.RawDescriptionHelpFormatter)
    parser.add_argument("dgc")
    parser.add_argument("--names", type=int, nargs="+", default=[2000, 9000])
    parser.add_argument("--runs", type=int, default=3)
    parser.add_argument("--only", nargs="+", default=[""])
    asked = parser.parse_args()
    dgc, slow = os.path.realpath(asked.dgc), 0
    with tempfile.TemporaryDirectory() as folder:
        finder = os.path.join(folder, "collide")
        subprocess.run(["cc", "-O2", "-o", finder, os.path.join(HERE, "collide.c")], check=True)
        runner = Runner(dgc, folder, MOST_SECONDS)
        for kind, (what, command, aimed_at) in KINDS.items():
            if not any(word in kind for word in asked.only):
                continue
            for count in asked.names:
                times = {choice: least_time(runner, asked.runs, *command(names)) for choice, names in choices(finder, what, count, aimed_at).items()}
                slow += any(took > MOST_TIMES * times["others"] for took in times.values())
                print(f"{kind}, {count}: " + ", ".join(f"{choice} {took:.3f} s" for choice, took in times.items()), flush=True)
    sys.exit(1 if slow else 0)


main()
