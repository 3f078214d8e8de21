#!/usr/bin/env python3
"""Runs accepted modules on real threads: many short runs that are drawn, and a long one that is timed.

    runs.py DGC [--runs R] [--seed S] [--steps N] [--cells C]

Draws R runs: the module, which function each of 1 to 8 threads begins at, which of them are late, how many cells there are,
and the limits. Each run has to end with status 0, a line for each thread of a form that fits its function, and a line for the
collector within its limit. Then it times `dgc run` of the walkthrough's module, with N instructions a thread over C cells,
on one, two and four threads. Prints what it found. For use by hand.
"""
import argparse
import collections
import os
import random
import re
import subprocess
import sys
import tempfile
import time

from drawn import draw_module

HERE = os.path.dirname(os.path.abspath(__file__))
SWAP = os.path.join(HERE, "..", "examples", "swap", "typed")


def run(dgc, *words):
    return subprocess.run([dgc, "run", *map(str, words)], capture_output=True, text=True, timeout=600)


def draw_runs(dgc, folder, options):
    """Makes the drawn runs; returns how often each kind of end came, and stops at the first run that is wrong."""
    draw = random.Random(options.seed)
    module, cert, trace = (os.path.join(folder, name) for name in ("m.ll", "m.cert", "m.trace"))
    told, cycles = collections.Counter(), 0
    for number in range(options.runs):
        text, certificate, ends = draw_module(draw)
        names = [draw.choice(list(ends)) for _ in range(draw.randrange(1, 9))]
        starts = [("late" if draw.random() < 0.3 else "start") + f" @{name}" + (f" {draw.randrange(1000)}" if name == "count" else "") for name in names]
        pools = [f"pool Node {draw.randrange(1, 64)}", f"pool Leaf {draw.randrange(1, 16)}"]
        threads = "\n".join(["trace 2", *pools, *starts, "steps", "end", ""])
        for path, content in ((module, text), (cert, certificate), (trace, threads)):
            with open(path, "w") as out:
                out.write(content)
        turns, steps = draw.randrange(20000), draw.choice([0, 1, 5, 50, 500, 5000])
        ran = run(dgc, module, cert, trace, "--turns", turns, "--steps", steps)
        printed = ran.stdout.split("\n")
        last = re.fullmatch(r"collector turns (\d+) cycles (\d+)", printed[-2] if len(printed) > 1 else "")
        good = ran.returncode == 0 and not ran.stderr and len(printed) == len(names) + 2 and last and int(last[1]) <= turns
        for thread, (name, line) in enumerate(zip(names, printed)):
            good = good and re.fullmatch(rf"t {thread} ({ends[name]})", line)
            told[line.split(" ")[2] if line.count(" ") > 1 else line] += 1
        if not good:
            sys.exit(f"run {number} is wrong: status {ran.returncode}\n{ran.stdout}{ran.stderr}")
        cycles += int(last[2])
    return told, cycles


def time_runs(dgc, folder, options):
    """Times the walkthrough's module on one, two and four threads."""
    trace = os.path.join(folder, "swap.trace")
    for threads in (1, 2, 4):
        with open(trace, "w") as out:
            out.write(f"trace 1\npool Node {options.cells}\n" + "start @swap\n" * threads + "steps\nend\n")
        began = time.time()
        ran = run(dgc, f"{SWAP}/barrier.ll", f"{SWAP}/swap.cert", trace, "--turns", 4294967295, "--steps", options.steps)
        took = time.time() - began
        print(f"{threads} threads: {threads * options.steps / took / 1e6:.1f} million instructions a second, {took:.1f} s, {ran.stdout.split(chr(10))[-2]}")


def main():
    options = argparse.ArgumentParser(description=__doc__.split("\n")[0])
    options.add_argument("dgc")
    options.add_argument("--runs", type=int, default=1000)
    options.add_argument("--seed", type=int, default=1)
    options.add_argument("--steps", type=int, default=20_000_000)
    options.add_argument("--cells", type=int, default=10_000)
    options = options.parse_args()
    with tempfile.TemporaryDirectory() as folder:
        told, cycles = draw_runs(options.dgc, folder, options)
        print(f"{options.runs} runs, none wrong; threads: {dict(told)}; cycles: {cycles}")
        time_runs(options.dgc, folder, options)


if __name__ == "__main__":
    main()
