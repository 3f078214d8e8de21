#!/usr/bin/env python3
"""Looks which planted mistakes `dgc soak`, `dgc soak --bias` and `dgc hunt` find.

    hunting.py DGC [--seeds N] [--steps S] [--seconds T] [--only WORD ..]

Takes each module of bench/planted, which has one mistake (its first line says which), with its trace. Prints a table: the first
seed of N whose schedule of S steps breaks its run, with the step, for uniform and for biased draws; and for `hunt`, which has no trace,
how many schedules it drew, the last step of the shortened one, and the processor time, T seconds at most. Below it stands how many
mistakes each found. Ends with 1 where biased draws find less than nine of ten, or `hunt` does not find one. docs/SEARCH.md has the table.
"""
import argparse
import glob
import os
import resource
import subprocess
import sys

PLANTED = os.path.join(os.path.dirname(os.path.abspath(__file__)), "planted")


def printed(words, seconds):
    """What a command prints, and the processor time that it takes, if that is within the limit."""
    before = resource.getrusage(resource.RUSAGE_CHILDREN)
    limit = lambda: resource.setrlimit(resource.RLIMIT_CPU, (seconds, seconds))
    done = subprocess.run(words, capture_output=True, text=True, preexec_fn=limit)
    after = resource.getrusage(resource.RUSAGE_CHILDREN)
    if done.returncode not in (0, 1, -9, -24):
        sys.exit(f"{' '.join(words)}: status {done.returncode}: {done.stderr}")
    return done.stdout.split(), after.ru_utime - before.ru_utime + after.ru_stime - before.ru_stime


def soaked(options, module, more):
    """The first broken seed with its step, or nothing."""
    trace = module.removesuffix(".ll") + ".trace"
    words = [options.dgc, "soak", module, trace, "--seeds", str(options.seeds), "--steps", str(options.steps), *more]
    said, _ = printed(words, 3600)
    if said[:1] != ["broken"]:
        return ""
    at = said.index("seed")
    return f"{int(said[at + 1]):,}, {int(said[at + 2]):,}"


def hunted(options, module):
    """How many schedules were drawn, the last step, and the time, or nothing."""
    said, took = printed([options.dgc, "hunt", module, "--seeds", "4000000000"], options.seconds)
    if said[:1] != ["broken"]:
        return ""
    seeds = int(said[said.index("seeds") + 1])
    return f"{seeds:,}, {int(said[1]):,}, {took:.1f}"


def mistake(module):
    """What the first line of a module says, and how many threads its trace has."""
    with open(module, encoding="utf-8") as text:
        said = text.readline().lstrip("; ").split(":")[0].rstrip(".\n")
    with open(module.removesuffix(".ll") + ".trace", encoding="utf-8") as text:
        return said, sum(line.startswith("start") for line in text)


def main():
    asked = argparse.ArgumentParser()
    asked.add_argument("dgc", type=os.path.abspath)
    asked.add_argument("--seeds", type=int, default=1000)
    asked.add_argument("--steps", type=int, default=2000)
    asked.add_argument("--seconds", type=int, default=20)
    asked.add_argument("--only", nargs="*", default=[""])
    options = asked.parse_args()
    modules = [m for m in sorted(glob.glob(f"{PLANTED}/*.ll")) if any(word in m for word in options.only)]
    print("| Module | Mistake | Threads | Uniform: seed, step | Biased: seed, step | Hunt: schedules, steps, seconds |")
    print("|---|---|---:|---:|---:|---:|")
    found = [0, 0, 0]
    for module in modules:
        said, threads = mistake(module)
        ways = [soaked(options, module, []), soaked(options, module, ["--bias"]), hunted(options, module)]
        found = [count + bool(way) for count, way in zip(found, ways)]
        name = os.path.basename(module).removesuffix(".ll")
        print(f"| `{name}` | {said} | {threads} | {' | '.join(way or 'none' for way in ways)} |", flush=True)
    print(f"| found | of {len(modules)} | | {found[0]} | {found[1]} | {found[2]} |")
    sys.exit(found[1] * 10 < len(modules) * 9 or found[2] < len(modules))


main()
