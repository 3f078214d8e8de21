#!/usr/bin/env python3
"""Compares what the seeds of `dgc soak` draw with what docs/TRACES.md says of it, by a generator that is written here once more.

    drawn_values.py DGC [--seeds N] [--threads T] [--keep FOLDER]

Each of the seeds 0 to N-1, and as many near the last one, is soaked with `--drawn-values --save`. A thread goes wrong at its third step.
So the trace that is saved has the steps of the seed up to the first of these, and the numbers that it draws for each thread after the one
of the line. Both are compared with this script's own. Prints how many seeds are alike, or the first that differs, and ends with 1 then. For
use by hand.
"""
import argparse
import os
import subprocess
import sys
import tempfile

WORD, LONG = (1 << 32) - 1, (1 << 64) - 1
FACTOR = 6364136223846793005
# What a seed of 64 bits is made 16 bytes by.
ADDEND = 11634580027462260723
LAST_SEED = 4294967294
MODULE = """declare i64 @next()
%Node = type { i64, %Node* }
define i64 @f() gc "shadow-stack" {
entry:
  %a = call i64 @next()
  %b = call i64 @next()
  %v = load i64, i64* null
  ret i64 %v
}
"""


def output(state):
    """The word of 32 bits that PCG XSH RR gives of a state."""
    word, by = (state >> 18 ^ state) >> 27 & WORD, state >> 59
    return (word >> by | word << (-by & 31)) & WORD


class Pcg32:
    """`Pcg32` of the crate `rand_pcg`, seeded by `seed_from_u64`."""

    def __init__(self, seed):
        words = []
        for _ in range(4):
            seed = (seed * FACTOR + ADDEND) & LONG
            words.append(output(seed))
        self.increment = words[2] | words[3] << 32 | 1
        self.state = (words[0] | words[1] << 32) + self.increment & LONG
        self.go_on()

    def go_on(self):
        self.state = self.state * FACTOR + self.increment & LONG

    def next_u32(self):
        word = output(self.state)
        self.go_on()
        return word

    def next_u64(self):
        low = self.next_u32()
        return low | self.next_u32() << 32

    def up_to(self, last):
        """`random_range(0..=last)`."""
        count = last + 1
        drawn = self.next_u32() * count
        high, low = drawn >> 32, drawn & WORD
        if low > (1 << 32) - count and low + (self.next_u32() * count >> 32) > WORD:
            high += 1
        return high


def steps_of(seed, threads):
    """The lines of the steps up to the first third step of a thread."""
    generator, made, lines = Pcg32(seed), [0] * threads, []
    while not any(count == 3 for count in made):
        actor = generator.up_to(threads)
        name = "c" if actor == threads else f"t {actor}"
        if lines and lines[-1][0] == name:
            lines[-1][1] += 1
        else:
            lines.append([name, 1])
        if actor < threads:
            made[actor] += 1
    return [f"{name} {count}" for name, count in lines]


def saved_of(seed, threads):
    """The trace that is saved of a seed."""
    lines = ["trace 1"]
    for thread in range(threads):
        generator = Pcg32(seed + (thread + 2) * 2**32)
        numbers = [7, *[generator.next_u64() for _ in range(16)]]
        lines += ["start @f", "values " + " ".join(map(str, numbers))]
    return "\n".join([*lines, "steps", *steps_of(seed, threads), "end", ""])


def main():
    parser = argparse.ArgumentParser(description=__doc__.split("\n")[0])
    parser.add_argument("dgc")
    parser.add_argument("--seeds", type=int, default=100)
    parser.add_argument("--threads", type=int, default=3)
    parser.add_argument("--keep", metavar="FOLDER")
    given = parser.parse_args()
    dgc = os.path.realpath(given.dgc)
    with tempfile.TemporaryDirectory() as room:
        folder = given.keep or room
        os.makedirs(folder, exist_ok=True)
        with open(f"{folder}/module.ll", "w") as file:
            file.write(MODULE)
        with open(f"{folder}/start.trace", "w") as file:
            file.write("trace 1\n" + "start @f\nvalues 7\n" * given.threads + "steps\nend\n")
        seeds = [*range(given.seeds), *range(LAST_SEED - given.seeds + 1, LAST_SEED + 1)]
        for seed in seeds:
            words = [dgc, "soak", "module.ll", "start.trace", "--forms", "wide", "--drawn-values", "--seeds", "1", "--steps", "10000"]
            run = subprocess.run([*words, "--first", str(seed), "--save", "saved.trace"], cwd=folder, capture_output=True, text=True)
            saved = open(f"{folder}/saved.trace").read() if run.returncode == 1 else ""
            if saved != saved_of(seed, given.threads):
                print(f"seed {seed} draws other numbers or steps: {run.stdout}{run.stderr}{saved}")
                sys.exit(1)
    print(f"{len(seeds)} seeds draw what docs/TRACES.md says")


main()
