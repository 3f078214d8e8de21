#!/usr/bin/env python3
"""Records replays of drawn accepted modules, and asks `dgc conform` of each.

    drawn_records.py DGC [--steps N] [--trace S] [--seed S]

Draws modules that `dgc check` accepts, every second one with opaque pointers, each with a trace of S steps (`stops.py`). `dgc replay` writes the
record of each run, which has to conform, step for step. Then one value that a step found is changed in the record: `dgc conform` has to name that
step, its actor and H3. Goes on until N steps were recorded. Prints how many modules and steps there were, and how many steps of each kind. Ends with
1 at the first answer that is another.
"""
import argparse
import collections
import os
import random
import struct
import subprocess
import sys
import tempfile

from cases import Runner
from drawn import draw_module
from stops import drawn_actors, drawn_head, migrated, trace_of

SECONDS = 60
ENTRY = struct.Struct("<BBHIQ")
NAMES_A_ROOT = 13
# The kinds of entries whose value is what a word held (docs/RECORDS.md).
FINDS = {1, 2, 8, 24, 25}
COLLECTOR = 255


def steps_in(data):
    """The steps of a record: where the entry of each begins, its actor and its kind."""
    found = []
    for at in range(0, len(data), ENTRY.size):
        actor, kind = ENTRY.unpack_from(data, at)[:2]
        if kind != NAMES_A_ROOT:
            found.append((at, actor, kind))
    return found


def changed(draw, data, steps):
    """The record with one value changed that a step found, and what `dgc conform` has to say of it; None where no step found one."""
    finding = [number for number, (_, _, kind) in enumerate(steps) if kind in FINDS]
    if not finding:
        return None
    number = draw.choice(finding)
    at, actor, _ = steps[number]
    *fields, value = ENTRY.unpack_from(data, at)
    name = "c" if actor == COLLECTOR else f"t {actor}"
    return data[:at] + ENTRY.pack(*fields, value ^ 1) + data[at + ENTRY.size:], (1, f"no {number + 1} {name} H3\n")


class Trial:
    """The recorded run of a drawn module, in the folder of a runner."""

    def __init__(self, runner, draw, is_opaque, length):
        self.runner, self.draw = runner, draw
        module, certificate, ends = draw_module(draw)
        self.accepted = self.accepts(module, certificate)
        head, threads = drawn_head(draw, ends)
        trace = trace_of(head, drawn_actors(draw, threads, length))
        module, shapes = migrated(runner, module, certificate) if is_opaque else (module, "")
        self.write("m.ll", module)
        self.write("m.trace", trace)
        self.write("m.shapes", shapes)
        self.shapes = ["--shapes", "m.shapes"] if shapes else []

    def write(self, name, text):
        """Writes a file of the folder."""
        with open(os.path.join(self.runner.folder, name), "w", encoding="utf-8") as file:
            file.write(text)

    def answer(self, *words):
        """The status of a command, and what it prints."""
        run = subprocess.run([self.runner.program, *words], cwd=self.runner.folder, capture_output=True, timeout=SECONDS, check=False)
        return run.returncode, run.stdout.decode()

    def accepts(self, module, certificate):
        """Whether `dgc check` says yes."""
        self.write("m.ll", module)
        self.write("m.cert", certificate)
        status, printed = self.answer("check", "m.ll", "m.cert")
        return status == 0 and printed.startswith("yes ")

    def recorded(self):
        """The record of the replay; None where that is not sound."""
        status, printed = self.answer("replay", "m.ll", "m.trace", "--record", "m.record", *self.shapes)
        if status or not printed.startswith("sound "):
            return None
        with open(os.path.join(self.runner.folder, "m.record"), "rb") as file:
            return file.read()

    def judged(self, record):
        """What `dgc conform` says of a record."""
        with open(os.path.join(self.runner.folder, "m.record"), "wb") as file:
            file.write(record)
        return self.answer("conform", "m.ll", "m.trace", "m.record", *self.shapes)

    def fault(self, counts):
        """What is not as it has to be, or None. Counts the kinds of the steps."""
        if not self.accepted:
            return "the drawn module is not accepted"
        record = self.recorded()
        if record is None:
            return "the replay is not sound"
        steps = steps_in(record)
        counts.update(kind for _, _, kind in steps)
        said = self.judged(record)
        if said != (0, f"conforms {len(steps)}\n"):
            return f"of {len(steps)} recorded steps conform says {said}"
        wrong = changed(self.draw, record, steps)
        if wrong and (said := self.judged(wrong[0])) != wrong[1]:
            return f"of a changed value conform says {said}, and not {wrong[1]}"
        return None


def main():
    asked = argparse.ArgumentParser()
    asked.add_argument("dgc", type=os.path.abspath)
    asked.add_argument("--steps", type=int, default=10_000_000)
    asked.add_argument("--trace", type=int, default=200_000)
    asked.add_argument("--seed", type=int, default=0)
    options = asked.parse_args()
    draw, counts, modules = random.Random(options.seed), collections.Counter(), 0
    with tempfile.TemporaryDirectory(dir="/dev/shm" if os.path.isdir("/dev/shm") else None) as folder:
        runner = Runner(options.dgc, folder, SECONDS)
        while counts.total() < options.steps:
            fault = Trial(runner, draw, modules % 2 == 1, options.trace).fault(counts)
            if fault:
                print(f"module {modules}: {fault}")
                sys.exit(1)
            modules += 1
    print(f"{modules} modules, {counts.total()} steps, of each kind:", " ".join(f"{kind}:{count}" for kind, count in sorted(counts.items())))


if __name__ == "__main__":
    main()
