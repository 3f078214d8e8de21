#!/usr/bin/env python3
"""Times `dgc replay` and `dgc soak`, in atomic steps per second, and a C program that makes the same steps.

    replays.py DGC [--steps N] [--threads T] [--cells C] [--seeds K] [--seed S] [--runs R]

Writes a module whose threads claim cells, keep them, store them in a global and come to safepoints, and a trace of N
drawn steps of T threads and the collector over C cells. `bench/steps.c`, which knows this one program and checks
nothing, makes the same steps: it is built with `cc -O2` (left out where there is none), and what it prints has to be
what `dgc replay` prints. The soak makes N / K steps for each of K seeds. Prints the fastest of R runs of each. For use
by hand.
"""
import argparse
import os
import random
import shutil
import subprocess
import sys
import tempfile

from generate import DECLARED
from timing import fastest

HERE = os.path.dirname(os.path.abspath(__file__))

MODULE = """%Node = type { i64, %Node* }
@g = global %Node* null
""" + DECLARED + """define void @spin() gc "shadow-stack" {
entry:
  %s = alloca %Node*
  %r = bitcast %Node** %s to i8**
  call void @llvm.gcroot(i8** %r, i8* null)
  br label %loop
loop:
  %a = call i8* @dg_alloc(i32 0)
  %x = bitcast i8* %a to %Node*
  store %Node* %x, %Node** %s
  call void @llvm.gcwrite(i8* %a, i8* null, i8** bitcast (%Node** @g to i8**))
  call void @dg_safepoint()
  br label %loop
}
"""


def write_trace(path, options):
    """A trace whose steps are drawn, a few of one actor at a time."""
    draw = random.Random(options.seed)
    left = options.steps
    with open(path, "w") as out:
        out.write(f"trace 1\npool Node {options.cells}\n" + "start @spin\n" * options.threads + "steps\n")
        while left > 0:
            count = min(left, draw.randrange(1, 9))
            actor = draw.randrange(options.threads + 1)
            out.write(f"c {count}\n" if actor == options.threads else f"t {actor} {count}\n")
            left -= count
        out.write("end\n")


def show(name, took, steps, printed):
    """A line of the table."""
    print(f"  {name:12} {took * 1000:9.1f} ms {steps / took:14,.0f} steps/s  {printed.splitlines()[0][:60]}")


def main():
    parser = argparse.ArgumentParser(description=__doc__.split("\n")[0])
    parser.add_argument("dgc")
    parser.add_argument("--steps", type=int, default=1000000)
    parser.add_argument("--threads", type=int, default=3)
    parser.add_argument("--cells", type=int, default=100)
    parser.add_argument("--seeds", type=int, default=100)
    parser.add_argument("--seed", type=int, default=0)
    parser.add_argument("--runs", type=int, default=3)
    options = parser.parse_args()
    with tempfile.TemporaryDirectory() as folder:
        module, trace = os.path.join(folder, "spin.ll"), os.path.join(folder, "spin.trace")
        with open(module, "w") as out:
            out.write(MODULE)
        write_trace(trace, options)
        print(f"{options.steps} steps, {options.threads} threads, {options.cells} cells")
        replayed, said = fastest([options.dgc, "replay", module, trace], options.runs)
        show("dgc replay", replayed, options.steps, said)
        each = options.steps // options.seeds
        soaked, answer = fastest([options.dgc, "soak", module, trace, "--seeds", str(options.seeds),
                                  "--steps", str(each)], options.runs)
        show("dgc soak", soaked, each * options.seeds, answer)
        if shutil.which("cc"):
            program = os.path.join(folder, "steps")
            subprocess.run(["cc", "-O2", "-o", program, os.path.join(HERE, "steps.c")], check=True)
            made, told = fastest([program, trace], options.runs)
            show("steps.c", made, options.steps, told)
            print(f"  replay / steps.c = {replayed / made:.1f}")
            if told != said:
                sys.exit("the two print different lines")


if __name__ == "__main__":
    main()
