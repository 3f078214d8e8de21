#!/usr/bin/env python3
"""Times commands that explain what they refuse, beside the same without explanations.

    explained.py DGC [--functions N] [--instructions N] [--runs R] [--workers N]

The texts: a module of generate.py after which a function is refused, for `check`, `check --all`, `make` and `recheck`; and one function of
many instructions, of which the last is refused. For each it prints the least processor time of R runs with `--explain never` and with
`--explain always`, and how many times longer the second takes. Beside an other build of dgc it shows what a change of the explanations
gains. For use by hand.
"""
import argparse
import math
import os
import subprocess
import sys
import tempfile

from generate import HEAD
from making import least

HERE = os.path.dirname(os.path.abspath(__file__))
REFUSED = "define void @refused() {\nentry:\n  %v = load i64, i64* null\n  ret void\n}\n"
SECTION = "function @refused none\nend\n"


def write(path, text):
    """Writes a text, and returns its path."""
    with open(path, "w") as out:
        out.write(text)
    return path


def many_functions(folder, functions):
    """A drawn module that ends with a function that is refused, its certificate, and an edit that changes nothing."""
    base = os.path.join(folder, "functions")
    subprocess.run([sys.executable, os.path.join(HERE, "generate.py"), "--functions", str(functions), "--seed", "0", base], check=True)
    for path, more in ((base + ".ll", REFUSED), (base + ".cert", SECTION)):
        with open(path, "a") as out:
            out.write(more)
    return base + ".ll", base + ".cert", write(base + ".edits", f"edit cert @refused\n{SECTION}.\n")


def long_function(folder, instructions):
    """One function, of which the last of so many instructions is refused, and its certificate."""
    body = "".join(f"  %n{i} = add i64 {i}, 1\n" for i in range(instructions))
    module = HEAD + REFUSED.replace("  %v", body + "  %v")
    base = os.path.join(folder, "instructions")
    return write(base + ".ll", module), write(base + ".cert", "cert 1\n" + SECTION)


def commands(options, folder):
    """What is timed: words that say what it is, and the command."""
    module, cert, edits = many_functions(folder, options.functions)
    workers = ["--workers", str(options.workers)]
    yield f"check, {options.functions} functions", ["check", module, cert, *workers]
    yield f"check --all, {options.functions} functions", ["check", module, cert, "--all", *workers]
    yield f"recheck, {options.functions} functions", ["recheck", module, cert, edits]
    yield f"make, {options.functions} functions", ["make", module]
    yield f"check, {options.instructions} instructions", ["check", *long_function(folder, options.instructions), *workers]


def in_turn(command, runs):
    """The least processor time of a command without explanations and with them. One run of each follows the other, so that what else
    runs on the machine meets both."""
    plain = explained = math.inf
    for _ in range(runs):
        without, said = least([*command, "--explain", "never"], 1)
        with_them, again = least([*command, "--explain", "always"], 1)
        assert said == again and said.startswith(b"no"), said[:80]
        plain, explained = min(plain, without), min(explained, with_them)
    return plain, explained


def main():
    parser = argparse.ArgumentParser(description=__doc__.split("\n")[0])
    parser.add_argument("dgc")
    parser.add_argument("--functions", type=int, default=4000)
    parser.add_argument("--instructions", type=int, default=200000)
    parser.add_argument("--runs", type=int, default=7)
    parser.add_argument("--workers", type=int, default=1)
    options = parser.parse_args()
    with tempfile.TemporaryDirectory() as folder:
        for what, command in commands(options, folder):
            plain, explained = in_turn([options.dgc, *command], options.runs)
            print(f"{what}: plain {plain:.3f} s, explained {explained:.3f} s, {explained / plain:.2f} times")


if __name__ == "__main__":
    main()
