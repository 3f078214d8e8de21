#!/usr/bin/env python3
"""Times `dgc make` beside `dgc check`, on modules of generate.py.

    making.py DGC [--functions N ..] [--seed S] [--runs R]

For each number of functions it prints the least processor time of R runs of: reading the module (`check` with a certificate whose
first word is wrong); `check` with the certificate of generate.py; `make`; and `check` with the certificate that was made. Then it
prints how many times longer `make` takes than `check`, as whole commands and without the reading of the module, and how the time
of each grows from one number to the next: where twice the functions take 2^exponent the time. For use by hand.
"""
import argparse
import math
import os
import resource
import subprocess
import sys
import tempfile

HERE = os.path.dirname(os.path.abspath(__file__))
PARTS = ["reading", "check", "make", "check of what is made"]


def processor_time():
    """What the programs that have ended took, in seconds of a processor."""
    used = resource.getrusage(resource.RUSAGE_CHILDREN)
    return used.ru_utime + used.ru_stime


def least(command, runs):
    """The least processor time of some runs, and what was printed."""
    best, said = math.inf, b""
    for _ in range(runs):
        before = processor_time()
        said = subprocess.run(command, capture_output=True).stdout
        best = min(best, processor_time() - before)
    return best, said


def times(options, folder, functions):
    """The time of each part."""
    base = os.path.join(folder, f"m{functions}")
    subprocess.run([sys.executable, os.path.join(HERE, "generate.py"), "--functions", str(functions), "--seed", str(options.seed), base], check=True)
    module, cert, made, wrong = base + ".ll", base + ".cert", base + ".made", base + ".wrong"
    with open(wrong, "w") as out:
        out.write("no\n")
    reading, _ = least([options.dgc, "check", module, wrong], options.runs)
    checking, said = least([options.dgc, "check", module, cert], options.runs)
    assert said == f"yes {functions}\n".encode(), said[:80]
    making, text = least([options.dgc, "make", module], options.runs)
    with open(made, "wb") as out:
        out.write(text)
    again, said = least([options.dgc, "check", module, made], options.runs)
    assert said == f"yes {functions}\n".encode(), said[:80]
    return reading, checking, making, again


def exponents(before, after):
    """How each part grows from one number of functions to another."""
    (few, short), (many, long) = before, after
    return [math.log(now / then) / math.log(many / few) for then, now in zip(short, long)]


def main():
    options = argparse.ArgumentParser(description=__doc__.split("\n")[0])
    options.add_argument("dgc")
    options.add_argument("--functions", type=int, nargs="+", default=[1000, 4000, 10000])
    options.add_argument("--seed", type=int, default=0)
    options.add_argument("--runs", type=int, default=5)
    options = options.parse_args()
    print(f"{'functions':>10}" + "".join(f"{part:>24}" for part in PARTS) + f"{'make / check':>24}{'without reading':>24}")
    with tempfile.TemporaryDirectory() as folder:
        before = None
        for functions in options.functions:
            took = times(options, folder, functions)
            reading, checking, making, _ = took
            print(f"{functions:>10}" + "".join(f"{part * 1000:>21.1f} ms" for part in took)
                  + f"{making / checking:>24.2f}{(making - reading) / (checking - reading):>24.2f}")
            if before:
                print(f"{'exponent':>10}" + "".join(f"{part:>24.2f}" for part in exponents(before, (functions, took))))
            before = functions, took


if __name__ == "__main__":
    main()
