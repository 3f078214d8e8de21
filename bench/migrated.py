#!/usr/bin/env python3
"""Replays drawn modules and what `dgc migrate` makes of them with the same traces, and compares the lines.

    migrated.py DGC [--modules N] [--seed S] [--steps N] [--cuts C] [--keep FOLDER]

Draws N modules with typed pointers, a third of them each by drawn.py, generate.py and passing.py, and certificates that `dgc check`
has to accept. `dgc migrate` has to turn module and certificate into opaque text, and `check` has to accept that too. Only where
the module makes a value of null alone, which may be lost (docs/MIGRATION.md), it may answer K1. Then a trace of S steps is drawn:
which function each of 1 to 4 threads begins at, which are late, how many cells there are, and who makes each step. `dgc replay` of
both has to print the same and end with 0: with the whole trace, and with its first steps up to each of C drawn places.
Prints how many modules and replays there were, what came of their threads, and each that is not as it has to be. Ends with status 1
where there is one. For use by hand.
"""
import argparse
import collections
import os
import random
import re
import subprocess
import sys
import tempfile

import passing
from drawn import draw_module
from generate import HEAD, SHAPES
from make import shapes_of
from stops import drawn_actors, trace_of


def of_drawn(draw):
    """A module whose threads share cells."""
    return draw_module(draw)[:2]


def of_generate(draw):
    """A module of a few functions of the kind that a compiler emits."""
    written = [draw.choice(SHAPES)(draw, f"f{number}") for number in range(draw.randrange(2, 12))]
    lines = [line for code, _ in written for line in code]
    facts = [line for _, section in written for line in section]
    return HEAD + "\n".join(lines) + "\n", "\n".join(["cert 1", *facts]) + "\n"


def of_passing(draw):
    """A module whose references pass through calls as `i8*`."""
    module = passing.Drawn(draw.randrange(1 << 32), passing.Typed())
    return module.text, module.certificate


SOURCES = [of_drawn, of_generate, of_passing]
OF_NULL = re.compile(r"= bitcast \S+ null to |= select i1 [^,]+, \S+ null, \S+ null")


def starts_of(text):
    """The functions that a thread may begin at, each with the bits of its arguments."""
    found = re.findall(r"^define \S+ (@\S+?)\((.*?)\) ", text, re.M)
    return {name: re.findall(r"i(\d+) %", given) for name, given in found if "*" not in given}


def drawn_head(draw, text):
    """The lines of a trace before its steps, and how many threads there are."""
    starts, lines = starts_of(text), []
    for name in draw.choices(list(starts), k=draw.randrange(1, 5)):
        arguments = [str(draw.randrange(min(1 << int(bits), draw.choice([4, 20, 1000])))) for bits in starts[name]]
        lines.append(" ".join(["late" if draw.random() < 0.2 else "start", name, *arguments]))
    pools = [f"pool {layout} {draw.randrange(1, 8)}" for layout in re.findall(r"^%(\S+) = type ", text, re.M)]
    return ["trace 2", *pools, *lines, "steps"], len(lines)


def drawn_module(draw, source):
    """A module at which a thread may begin, and its certificate."""
    while True:
        text, cert = source(draw)
        if starts_of(text):
            return text, cert


class Pair:
    """A module and the migrated one, as files."""

    def __init__(self, dgc, base):
        self.dgc, self.base, self.wrong, self.is_lost = dgc, base, [], False

    def run(self, *words):
        return subprocess.run([self.dgc, *words], capture_output=True, text=True, timeout=120)

    def path(self, suffix, text):
        path = self.base + suffix
        with open(path, "w") as out:
            out.write(text)
        return path

    def printed(self, *words):
        """What a command prints that has to succeed."""
        ran = self.run(*words)
        if ran.returncode:
            self.wrong.append(f"{words[0]} of {os.path.basename(words[1])}: status {ran.returncode} {ran.stdout.strip()} {ran.stderr.strip()}")
        return ran.stdout

    def migrate(self, text, cert):
        """Writes both modules, and checks them."""
        self.typed, typed_cert = self.path(".ll", text), self.path(".cert", cert)
        self.printed("check", self.typed, typed_cert)
        self.opaque = self.path(".opaque.ll", self.printed("migrate", self.typed))
        opaque_cert = self.printed("migrate", self.typed, typed_cert)
        self.shapes = self.path(".shapes", shapes_of(opaque_cert))
        checked = self.run("check", self.opaque, self.path(".opaque.cert", opaque_cert))
        self.is_lost = checked.stdout.endswith(" K1\n") and OF_NULL.search(text) is not None
        if checked.returncode and not self.is_lost:
            self.wrong.append(f"the migrated one: {checked.stdout}{checked.stderr}")

    def replay(self, trace):
        """What is printed of a trace, if both print the same."""
        path = self.path(".trace", trace)
        typed = self.printed("replay", self.typed, path)
        opaque = self.printed("replay", self.opaque, path, "--shapes", self.shapes)
        if typed != opaque:
            self.wrong.append(f"the typed module:\n{typed}the opaque one:\n{opaque}")
        return typed


def ends(printed):
    """What came of the threads of a replay."""
    return re.findall(r"^t \d+ (\w+(?: (?:null|ref))?)", printed, re.M)


def main():
    options = argparse.ArgumentParser(description=__doc__.split("\n")[0])
    options.add_argument("dgc", type=os.path.abspath)
    options.add_argument("--modules", type=int, default=300)
    options.add_argument("--seed", type=int, default=0)
    options.add_argument("--steps", type=int, default=2000)
    options.add_argument("--cuts", type=int, default=9)
    options.add_argument("--keep")
    options = options.parse_args()
    told, replays, lost, wrong = collections.Counter(), 0, 0, 0
    with tempfile.TemporaryDirectory() as scratch:
        folder = options.keep or scratch
        os.makedirs(folder, exist_ok=True)
        for number in range(options.modules):
            draw = random.Random(f"{options.seed} {number}")
            text, cert = drawn_module(draw, SOURCES[number % len(SOURCES)])
            pair = Pair(options.dgc, os.path.join(folder, f"m{number}"))
            pair.migrate(text, cert)
            head, threads = drawn_head(draw, text)
            actors = drawn_actors(draw, threads, options.steps)
            for cut in sorted(draw.sample(range(1, options.steps), options.cuts)) + [options.steps]:
                printed = pair.replay(trace_of(head, actors[:cut]))
                replays += 1
            told.update(ends(printed))
            wrong += bool(pair.wrong)
            lost += pair.is_lost
            print("".join(f"module {number}: {line}\n" for line in pair.wrong), end="")
    print(f"{options.modules} modules, {options.modules - lost} accepted in both forms, {lost} lost to a value of null alone")
    print(f"{replays} replays of each form; threads at the end: {dict(told)}; {wrong} modules are not as they have to be")
    sys.exit(1 if wrong else 0)


if __name__ == "__main__":
    main()
