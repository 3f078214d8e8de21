#!/usr/bin/env python3
"""Times the steps of real threads on a shared heap, and a C program that makes the same steps.

    heap.py [--scratch FOLDER] [--program PROGRAM] [--runs R] [--threads N ..]

bench/heap/heap_bench is a program over `heap_table`. It is no crate of crates.txt, so the gate does not prove it, and its
files have the suffix .in. The script copies the crates to FOLDER (by default out/heap_bench), with this one as one more, and
`rt run` proves and builds it there. That takes some minutes the first time. PROGRAM is one that was built before.
bench/heap/steps.c makes the same steps over words that lie in the same places, by sequentially consistent atomics of C11. It
is built with `clang -O3` where there is one, as the kit builds programs, and else with `cc -O3`.

Prints a row for each call and each number of threads: million steps a second of each program, and how many times longer the
first one takes. The first three columns are the middle of R runs, and the last three the fastest ones. The programs take
turns. Times are processor time, so other work on the machine counts only by what it does to caches. For use by hand.
"""
import argparse
import collections
import os
import shutil
import statistics
import subprocess

from building import TOP, build

HERE = os.path.dirname(os.path.abspath(__file__))
CRATE = "heap_bench"
USES = "items lemmas pools colours heap_rule heap_words heap_table anyhow"

# A call, what is counted, and how many of these a call makes; the nodes of the heap, and how often a thread reads, asks, or
# stores to each of its nodes.
Row = collections.namedtuple("Row", "call counted steps cells times")
NODES = 65536
ROWS = [
    Row("read", "reads along a chain", 1, NODES, 1000000),
    Row("store", "plain stores", 1, NODES, 60),
    Row("write", "steps of barriered stores", 3, NODES, 40),
    Row("claim", "claims that win a node", 1, 8 * NODES, 8 * NODES),
    Row("try", "claims that lose", NODES, NODES, 30),
]


def build_c(scratch):
    """Builds the C program; returns its path."""
    program = os.path.join(scratch, "steps")
    compiler = shutil.which("clang") or "cc"
    command = [compiler, "-O3", "-std=c11", "-pthread", "-o", program, os.path.join(HERE, "heap", "steps.c")]
    subprocess.run(command, check=True)
    return program


def rate(program, row, threads):
    """Million steps a second in one run."""
    words = [program, row.call, str(threads), str(row.cells), str(row.times)]
    calls, took = map(int, subprocess.run(words, check=True, capture_output=True, text=True).stdout.split())
    return calls * row.steps * 1000 / took


def rates(programs, row, threads, runs):
    """The rates of each program; the one that runs first differs from run to run."""
    found = {program: [] for program in programs}
    for turn in range(runs):
        for program in programs[:: 1 if turn % 2 else -1]:
            found[program].append(rate(program, row, threads))
    return found.values()


def main():
    parser = argparse.ArgumentParser(description=__doc__.split("\n")[0])
    parser.add_argument("--scratch", default=os.path.join(TOP, "out", CRATE))
    parser.add_argument("--program")
    parser.add_argument("--runs", type=int, default=25)
    parser.add_argument("--threads", type=int, nargs="+", default=[1, 2, 4])
    options = parser.parse_args()
    os.makedirs(options.scratch, exist_ok=True)
    program = options.program or build(options.scratch, os.path.join(HERE, "heap", CRATE), USES, ["read", "1", "1024", "1024"])
    twin = build_c(options.scratch)
    print(f"{'million steps a second':28} threads    middle       C  times   fastest       C  times")
    for row in ROWS:
        for threads in options.threads:
            ours, theirs = rates([program, twin], row, threads, options.runs)
            columns = "".join(
                f"  {of(ours):8.1f} {of(theirs):7.1f} {of(theirs) / of(ours):6.2f}" for of in (statistics.median, max)
            )
            print(f"{row.counted:28} {threads:7}{columns}", flush=True)


if __name__ == "__main__":
    main()
