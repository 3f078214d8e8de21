#!/usr/bin/env python3
"""Times the part of `dgc check` that several workers share.

    workers.py DGC [--functions N] [--seed S] [--runs R] [--workers N ..] [--instructions]

With several workers it is the time from the start of the first thread to the moment at which the last one was joined, which a
library notes that is loaded before the program (spans.c). One share runs on the first thread, so its time is in it too. With one
worker there is no thread to look at: it is the time of the whole, without the time of the same module with a function before all
others that breaks a rule, since the check then stops there. The runs with one, two and more workers take turns. Prints the
fastest and the middle of R runs. The last column says how many times as fast N workers could be on this machine: N programs with
one worker each run at once, and each takes longer than one alone. For use by hand, where nothing else runs.

With --instructions it counts, in place of the time, the instructions of the shared part by valgrind's callgrind: of one worker, and
of the thread that makes most of them. Their ratio says how evenly the work is shared. It does not depend on the machine.
"""
import argparse
import glob
import os
import re
import statistics
import subprocess
import sys
import tempfile

from timing import timed

HERE = os.path.dirname(os.path.abspath(__file__))

REFUSED = "define void @refused.first() {\nentry:\n  %x = add i64 %y, 1\n  %y = add i64 0, 1\n  ret void\n}\n"
REFUSED_SECTION = "function @refused.first none\nend\n"


def content(path):
    with open(path, encoding="utf-8") as file:
        return file.read()


def with_refused(base, path):
    """Writes the module and the certificate of `base` with the function that breaks a rule before the others."""
    text, lines = content(base + ".ll"), content(base + ".cert")
    place = text.index("define ")
    first, rest = lines.split("\n", 1)
    with open(path + ".ll", "w", encoding="utf-8") as file:
        file.write(text[:place] + REFUSED + text[place:])
    with open(path + ".cert", "w", encoding="utf-8") as file:
        file.write(first + "\n" + REFUSED_SECTION + rest)


def by_one(dgc, base, refused):
    """The seconds of a whole check by one worker, and of one that stops at the first function."""
    return (timed([dgc, "check", base + ".ll", base + ".cert"])[0], timed([dgc, "check", refused + ".ll", refused + ".cert"])[0])


def by_threads(dgc, base, workers, library, noted):
    """The seconds from the start of the first thread to the moment at which the last one was joined."""
    subprocess.run([dgc, "check", base + ".ll", base + ".cert", "--workers", str(workers)], check=True, stdout=subprocess.DEVNULL,
                   env={**os.environ, "LD_PRELOAD": library, "SPANS": noted})
    return int(content(noted).splitlines()[-1]) / 1e9


def at_once(dgc, base, count, runs):
    """The processor seconds of a check where `count` of them run at once, the middle of all."""
    took = []
    for _ in range(runs):
        started = [subprocess.Popen([dgc, "check", base + ".ll", base + ".cert"], stdout=subprocess.DEVNULL) for _ in range(count)]
        for _ in started:
            used = os.wait3(0)[2]
            took.append(used.ru_utime + used.ru_stime)
    return statistics.median(took)


def counted(command, folder):
    """The instructions that each thread of a command makes, the first thread first."""
    noted = os.path.join(folder, "calls")
    subprocess.run(["valgrind", "--tool=callgrind", "--separate-threads=yes", "--callgrind-out-file=" + noted, *command], check=False,
                   capture_output=True)
    files = sorted(glob.glob(noted + "-*"))
    threads = [int(re.findall(r"^(?:summary|totals): (\d+)", content(file), re.M)[-1]) for file in files]
    for file in files:
        os.remove(file)
    return threads


def print_instructions(dgc, base, refused, workers, folder):
    """Prints the instructions of the shared part: of one worker, and of the thread that makes most."""
    rest = sum(counted([dgc, "check", refused + ".ll", refused + ".cert"], folder))
    alone = sum(counted([dgc, "check", base + ".ll", base + ".cert"], folder)) - rest
    print(f"workers  instructions of the thread that makes most  times as few\n      1  {alone:44,}")
    for count in workers:
        first, *others = counted([dgc, "check", base + ".ll", base + ".cert", "--workers", str(count)], folder)
        most = max(first - rest, *others)
        print(f"{count:7}  {most:44,}  {alone / most:12.2f}")


def measured(dgc, base, refused, options, folder):
    """The seconds of the shared part by the number of workers: the fastest run and the middle of all."""
    library, noted = os.path.join(folder, "spans.so"), os.path.join(folder, "spans")
    subprocess.run(["cc", "-O2", "-shared", "-fPIC", "-o", library, os.path.join(HERE, "spans.c"), "-ldl"], check=True)
    pairs, took = [], {workers: [] for workers in options.workers}
    for _ in range(options.runs):
        pairs.append(by_one(dgc, base, refused))
        for workers in options.workers:
            took[workers].append(by_threads(dgc, base, workers, library, noted))
    wholes, rests = zip(*pairs)
    spans = {workers: (min(seconds), statistics.median(seconds)) for workers, seconds in took.items()}
    return {1: (min(wholes) - min(rests), statistics.median(wholes) - statistics.median(rests)), **spans}


def main():
    parser = argparse.ArgumentParser(description=__doc__.split("\n")[0])
    parser.add_argument("dgc")
    parser.add_argument("--functions", type=int, default=10000)
    parser.add_argument("--seed", type=int, default=0)
    parser.add_argument("--runs", type=int, default=15)
    parser.add_argument("--workers", type=int, nargs="+", default=[2, 3, 4])
    parser.add_argument("--instructions", action="store_true", help="counts instructions, by valgrind, in place of the time")
    options = parser.parse_args()
    with tempfile.TemporaryDirectory() as folder:
        base, refused = os.path.join(folder, "m"), os.path.join(folder, "refused")
        subprocess.run([sys.executable, os.path.join(HERE, "generate.py"), "--functions", str(options.functions),
                        "--seed", str(options.seed), base], check=True)
        with_refused(base, refused)
        print(f"{options.functions} functions, {os.path.getsize(base + '.ll') / 1e6:.2f} MB of text")
        if options.instructions:
            print_instructions(options.dgc, base, refused, options.workers, folder)
            return
        print("workers   fastest    middle  times as fast, by the fastest and by the middle, and at most")
        took = measured(options.dgc, base, refused, options, folder)
        lone = at_once(options.dgc, base, 1, options.runs)
        for workers, (best, middle) in took.items():
            print(f"{workers:7} {best * 1000:7.1f}ms {middle * 1000:7.1f}ms"
                  f"  {took[1][0] / best:5.2f} {took[1][1] / middle:5.2f}"
                  f" {workers * lone / at_once(options.dgc, base, workers, options.runs):5.2f}")


if __name__ == "__main__":
    main()
