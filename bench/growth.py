#!/usr/bin/env python3
"""Measures how the time of a command of `dgc` grows with the number of each kind of thing in its texts.

    growth.py DGC [--only WORD ..] [--least N] [--runs R] [--seconds S] [--beside OPT] [--make] [--opaque] [--instructions] [--keep FOLDER]
              [--all] [--full]

For each kind (growth_modules.py, growth_bodies.py, growth_pairs.py, growth_traces.py, growth_others.py) it writes texts with 1,000 things,
then about three times as many, up to 100,000 or the limit of the program, and runs the kind's command on each. Prints the
processor time of the largest and its memory, and the exponent: how the time grows with the size of the texts, where twice the text
takes 2^exponent the time. The size is in bytes, and in steps or things where a kind's text does not grow. The exponent is measured
from the last size to the one that is about ten times smaller, less the time that an empty module takes. A kind ends early at the
first run of more than S seconds. A time under 5 ms says nothing: then the exponent is `-`. A kind whose exponent is over 1.1 is marked.

With `--beside opt-14` the last column says how many times longer the check takes than that program's reader and verifier on the same
module, `-` where that refuses the module. With --make it times `dgc make` on the modules of `check` instead. With --opaque these
modules have opaque pointers, as `dgc migrate` makes them. With --instructions it counts, in place of the time, the instructions that
the program makes, in thousand millions, by valgrind's callgrind. That number is the same in each run, and does not depend on caches.
With --all the cost of each size is printed. With --full it makes one text of each kind, with as many things as 16 MiB or the program
allow, and there is no exponent. FOLDER keeps the texts. For use by hand.
"""
import argparse
import math
import os
import re
import resource
import signal
import subprocess
import sys
import tempfile

import growth_bodies
import growth_modules
import growth_others
import growth_pairs
import growth_traces
from growth_kinds import KINDS, WORDS

MOST_BYTES = 16777216
# a kind that may have so many things, the default, has no limit but that of its text
MANY = 100000
STEP = math.sqrt(10)
SMALL = 0.005
BOUND = 1.1
assert all([growth_modules, growth_bodies, growth_pairs, growth_traces, growth_others])


def run(command, runs, limit):
    """The least processor time of some runs, what was printed, and the most memory in MB; None for a run that takes too long."""
    best, said, memory = None, "", 0
    bound = (math.ceil(limit), math.ceil(limit) + 1)
    for _ in range(runs):
        with tempfile.TemporaryFile() as printed:
            child = subprocess.Popen(command, stdout=printed, stderr=subprocess.STDOUT,
                                     preexec_fn=lambda: resource.setrlimit(resource.RLIMIT_CPU, bound))
            _, ended, used = os.wait4(child.pid, 0)
            child.returncode = os.waitstatus_to_exitcode(ended)
            said = os.pread(printed.fileno(), 1 << 20, 0).decode(errors="replace").strip() or f"status {child.returncode}"
        if child.returncode in (-signal.SIGXCPU, -signal.SIGKILL):
            return None, "too long", 0
        took, memory = used.ru_utime + used.ru_stime, max(memory, used.ru_maxrss // 1024)
        best = took if best is None else min(best, took)
    return best, said, memory


def counted(command):
    """The instructions that a program makes, in thousand millions, and what it prints; its memory is not looked at."""
    watched = ["valgrind", "--tool=callgrind", "--callgrind-out-file=/dev/null", *command]
    ended = subprocess.run(watched, capture_output=True, text=True)
    number = int(re.search(r"^==\d+== Collected : (\d+)$", ended.stderr, re.M)[1])
    faults = re.sub(r"(?m)^==\d+==.*\n?", "", ended.stderr)
    return number / 1e9, (ended.stdout + faults).strip() or f"status {ended.returncode}", 0


def cost(command, options):
    """What a command costs, in seconds or in thousand million instructions, what it prints, and its memory in MB."""
    return counted(command) if options.instructions else run(command, options.runs, 4 * options.seconds)


def sizes(least, most):
    """Numbers of things, each about three times the one before."""
    count = float(min(least, max(most // 10, 1)))
    while round(count) < most:
        yield round(count)
        count *= STEP
    yield most


def made(it, count):
    """The texts of a kind with so many things, and how large they are."""
    *texts, last = it.make(count)
    if isinstance(last, str):
        return [*texts, last], sum(map(len, [*texts, last]))
    return texts, last


def largest(it):
    """The largest number of things that a text within the limit can have, to a hundredth."""
    count = 1000
    for _ in range(20):
        texts, told = made(it, count)
        size = max(map(len, texts))
        if told != sum(map(len, texts)) or it.most != MANY and count >= it.most:
            return it.most
        if 0.98 * MOST_BYTES < size <= MOST_BYTES:
            break
        count = round(count * 0.99 * MOST_BYTES / size)
    return count


def migrate(dgc, paths):
    """Turns a module and its certificate into those with opaque pointers."""
    for path, words in reversed([(paths[0], paths[:1]), (paths[1], paths)]):
        told = subprocess.run([dgc, "migrate", *words], capture_output=True, check=True).stdout
        with open(path, "wb") as out:
            out.write(told)


def measure(dgc, it, options, folder):
    """The rows of a kind: how many things, how many bytes, how long and how much memory. And what is wrong, if it was refused."""
    rows = []
    for count in [largest(it)] if options.full else sizes(options.least, it.most):
        texts, size = made(it, count)
        if max(map(len, texts)) > MOST_BYTES:
            break
        base = os.path.join(folder, it.name.replace(" ", "_").replace(",", "") + f"_{count}")
        paths = [f"{base}.{number}" for number in range(len(texts))]
        for path, text in zip(paths, texts):
            with open(path, "w") as out:
                out.write(text)
        if options.opaque:
            migrate(dgc, paths)
        words = ["make", paths[0]] if options.make else WORDS[it.command].format(*paths, count=count).split()
        took, said, memory = cost([dgc, *words], options)
        other_took = beside(options, it, paths[0])
        if not options.keep:
            for path in paths:
                os.remove(path)
        if took is None:
            return rows, f"more than {4 * options.seconds:.0f} s at {count:,}"
        if not said.startswith("cert 1" if options.make and it.says == "yes" else it.says):
            return rows, f"at {count:,}: {said.splitlines()[0][:60]}"
        rows.append((count, size, took, memory, other_took))
        if took > options.seconds:
            break
    return rows, ""


def beside(options, it, module):
    """The time that LLVM's reader and verifier take for a module; None where they refuse it, or are not asked."""
    if not options.beside or it.command != "check":
        return None
    took, said, _ = run([options.beside, "-passes=verify", "-disable-output", module], options.runs, 4 * options.seconds)
    return took if said == "status 0" else None


def exponent(rows, empty):
    """How the time grows with the size, over the last decade of sizes that can be measured; None if none can."""
    able = [(size, took - empty) for _, size, took, *_ in rows if took - empty > SMALL]
    if len(able) < 2:
        return None
    last = able[-1]
    first = max((row for row in able[:-1] if row[0] * 8 <= last[0]), default=able[0])
    if last[0] < 2 * first[0]:
        return None
    return math.log(last[1] / first[1]) / math.log(last[0] / first[0])


def asked():
    """What the command line asks for."""
    parser = argparse.ArgumentParser(description=__doc__.split("\n")[0])
    parser.add_argument("dgc")
    parser.add_argument("--only", nargs="+", default=None, help="kinds whose names have one of these words")
    parser.add_argument("--least", type=int, default=1000)
    parser.add_argument("--runs", type=int, default=3)
    parser.add_argument("--seconds", type=float, default=10)
    parser.add_argument("--beside", default=None, help="a program `opt` of LLVM 14 or older")
    parser.add_argument("--make", action="store_true", help="times `dgc make` on the modules of `check`")
    parser.add_argument("--opaque", action="store_true", help="the modules of `check` as `dgc migrate` makes them")
    parser.add_argument("--instructions", action="store_true", help="counts instructions, by valgrind, in place of the time")
    parser.add_argument("--keep", default=None)
    parser.add_argument("--full", action="store_true", help="only the largest text of each kind that is within the limit")
    parser.add_argument("--all", action="store_true", help="also prints the cost of each size")
    return parser.parse_args()


def main():
    options = asked()
    with tempfile.TemporaryDirectory() as scratch:
        folder = options.keep or scratch
        os.makedirs(folder, exist_ok=True)
        empty_module, empty_cert = os.path.join(folder, "empty.ll"), os.path.join(folder, "empty.cert")
        with open(empty_module, "w"), open(empty_cert, "w") as out:
            out.write("cert 1\n")
        command = [options.dgc, "check", empty_module, empty_cert]
        empty, _, _ = counted(command) if options.instructions else run(command, 10, 10)
        unit = "10^9" if options.instructions else "Seconds"
        names = ["Kind".ljust(50), "Things".rjust(9), "Size".rjust(10), unit.rjust(8), "MB".rjust(6), "Exponent"]
        names += ["By LLVM's"] if options.beside else []
        print("| " + " | ".join(names) + " |\n|" + "|".join("-" * (len(it) + 1) + ("-" if n == 0 else ":") for n, it in enumerate(names)) + "|")
        over = 0
        for it in KINDS:
            if options.only and not any(word in it.name for word in options.only):
                continue
            if (options.make or options.opaque) and it.command != "check" or options.opaque and it.says != "yes":
                continue
            rows, wrong = measure(options.dgc, it, options, folder)
            if options.all:
                for row in rows:
                    print(f"#   {row[0]:9,} {row[1]:11,} {row[2]:9.4f}")
            count, size, took, memory, other = rows[-1] if rows else (0, 0, 0.0, 0, None)
            grows = exponent(rows, empty)
            mark = " !" if grows and grows > BOUND else ""
            over += bool(mark)
            shown = "-" if grows is None else f"{grows:.2f}"
            ratio = f" {took / other:8.2f} |" if other else " " * 8 + "- |" if options.beside else ""
            print(f"| {it.name:50} | {count:9,} | {size:10,} | {took:8.3f} | {memory:6,} | {shown + mark:>8} |{ratio}{' ' + wrong if wrong else ''}", flush=True)
        print(f"{over} kinds grow faster than the size to the power of {BOUND}", file=sys.stderr)


if __name__ == "__main__":
    main()
