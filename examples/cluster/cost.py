#!/usr/bin/env python3
"""Measures what a piece costs, and reckons from that what 10^9 seeds and 10^6 modules take (docs/SCALE.md).

    cost.py DGC [--runs R] [--slurm] [--cpus "0 1"]

A piece is made as a task of an array makes it, by pieces.py, without Slurm, on one processor. The processor time is that of the task and
of all that it starts, and the least of R runs (3). Each size is twice the one before it, and beside each time stands that of the line
through the least and the largest. --slurm also begins a cluster by here.sh (as root), and times an array of 30 pieces of nothing. PORT is
that of its controller, and --cpus says to which processors its nodes are bound. It prints the tables of the page.
"""
import argparse
import contextlib
import json
import os
import subprocess
import sys
import tempfile
import time

import cluster
import pieces

HERE = os.path.dirname(os.path.abspath(__file__))
TOP = os.path.dirname(os.path.dirname(HERE))
PLANTED = os.path.join(TOP, "bench", "planted", "root_left_out")
SLOT = "  %s = alloca %Node*\n"
ROOT = "  %r = bitcast %Node** %s to i8**\n  call void @llvm.gcroot(i8** %r, i8* null)\n"
LENGTHS = (60, 600, 3600)


def endless(folder):
    """A module whose thread claims cells in a loop without an end, and its trace: the one of bench/planted with its root put back."""
    module = os.path.join(folder, "endless.ll")
    pieces.put(module, pieces.text_of(f"{PLANTED}.ll").replace(SLOT, SLOT + ROOT))
    return [module, f"{PLANTED}.trace"]


def processor_time(words):
    """The processor time of a command and of what it waited for."""
    child = subprocess.Popen(words, stdout=subprocess.DEVNULL)
    _, status, used = os.wait4(child.pid, 0)
    child.returncode = os.waitstatus_to_exitcode(status)
    if child.returncode:
        sys.exit(f"{' '.join(words)}: status {child.returncode}")
    return used.ru_utime + used.ru_stime


def least(words, runs, before=lambda: None):
    """The least processor time of so many runs."""
    found = []
    for _ in range(runs):
        before()
        found.append(processor_time(words))
    return min(found)


def of_piece(plan, parts, options):
    """The processor time of a piece: of the one that the plan has."""
    with tempfile.TemporaryDirectory() as folder:
        pieces.Work.begin(folder, plan, parts)
        answer = os.path.join(folder, "answers", "0")
        words = ["python3", "-E", "-S", os.path.join(HERE, "pieces.py"), folder, "0"]
        took = least(words, options.runs, lambda: os.path.exists(answer) and os.remove(answer))
        if not pieces.Work(folder).answer(0):
            sys.exit(f"a piece has no answer: {plan}")
        return took


def of_soak(seeds, steps, options):
    """The processor time of a piece of so many seeds."""
    sums = {path: pieces.sum_of(path) for path in [options.dgc, *options.soak]}
    words = [*options.soak, "--steps", str(steps)]
    return of_piece({"kind": "soak", "dgc": options.dgc, "cwd": "/", "words": words, "pieces": [(0, seeds)], "sums": sums}, (), options)


def of_checks(count, functions, options):
    """The processor time of a piece of so many checks, each of a module of so many functions, and the bytes of its text."""
    with tempfile.TemporaryDirectory() as folder:
        drawn = os.path.join(folder, "m")
        subprocess.run([sys.executable, os.path.join(TOP, "bench", "generate.py"), "--functions", str(functions), drawn], check=True, stdout=subprocess.DEVNULL)
        pairs = [(f"{drawn}.ll", f"{drawn}.cert")] * count
        plan = {"kind": "check", "dgc": options.dgc, "cwd": "/", "words": [], "pieces": [(0, count)], "sums": {options.dgc: pieces.sum_of(options.dgc)}}
        return of_piece(plan, [pairs], options), os.path.getsize(f"{drawn}.ll")


def table(title, sizes, times, unit):
    """Prints the times of doubled sizes, beside those of a line through the least and the largest. Returns what one costs."""
    one = (times[-1] - times[0]) / (sizes[-1] - sizes[0])
    print(f"\n| {title} | Processor time of the piece (s) | Of the line (s) |\n|---:|---:|---:|")
    for size, took in zip(sizes, times):
        print(f"| {size:,} | {took:.3f} | {times[0] + one * (size - sizes[0]):.3f} |")
    print(f"\nA {unit}: {one * 1e6:.2f} microseconds.", flush=True)
    return one


def reckoned(what, count, one, start):
    """Prints what so many take, for pieces of some lengths."""
    for length in LENGTHS:
        in_piece = max(1, min(count, int((length - start) / one)))
        made = -(-count // in_piece)
        print(f"| {what} | {length:,} | {in_piece:,} | {made:,} | {(count * one + made * start) / 3600:,.2f} | {100 * start / length:.2f} |")


def of_joining(options):
    """The processor time that the script takes for one pair of a list: to read its answer and to join it."""
    parts = [[(f"m{at}.ll", f"m{at}.cert") for at in range(number * 1000, number * 1000 + 1000)] for number in range(20)]
    plan = {"kind": "check", "dgc": options.dgc, "cwd": "/", "words": [], "pieces": pieces.cut(0, 20000, 20), "sums": {}, "list": "LIST"}
    with tempfile.TemporaryDirectory() as folder, open(os.devnull, "w", encoding="utf-8") as nothing:
        work = pieces.Work.begin(folder, plan, parts)
        for number in range(20):
            said = [[0, "yes 10\n", ""]] * 950 + [[1, "no @f %b 3 K6\n", ""]] * 50
            pieces.put(work.path("answers", number), json.dumps({"plan": work.sum, "piece": number, "said": said}))
        answers, began = {}, time.process_time()
        cluster.fresh_answers(work, answers)
        with contextlib.redirect_stdout(nothing):
            cluster.join_check(work, answers, False)
        return (time.process_time() - began) / 20000


def array_of_nothing(options):
    """The wall time of an array of 30 pieces of one seed of one step, by the piece."""
    with tempfile.TemporaryDirectory() as folder:
        where, bound = os.path.join(folder, "slurm"), {"CPUS": options.cpus} if options.cpus else {}
        surroundings = dict(os.environ, SLURM_CONF=os.path.join(where, "slurm.conf"), **bound)
        here = [os.path.join(HERE, "here.sh")]
        subprocess.run([*here, "start", where, "3"], env=surroundings, check=True, stdout=subprocess.DEVNULL)
        words = [sys.executable, os.path.join(HERE, "cluster.py"), "--dgc", options.dgc, "--pieces", "30", "--folder", os.path.join(folder, "work"), "--wait", "200"]
        time.sleep(3)
        began = time.monotonic()
        done = subprocess.run([*words, "soak", *options.soak, "--seeds", "30", "--steps", "1"], env=surroundings, capture_output=True, text=True)
        took = time.monotonic() - began
        subprocess.run([*here, "stop", where], check=True)
        time.sleep(2)
    if done.stdout != "sound 30 seeds\n":
        sys.exit(f"an array of nothing: {done.stdout}{done.stderr}")
    return took / 30


def load():
    return " ".join(f"{of:.1f}" for of in os.getloadavg())


def main():
    parser = argparse.ArgumentParser(description=__doc__.split("\n")[0])
    parser.add_argument("dgc", type=os.path.abspath)
    parser.add_argument("--runs", type=int, default=3)
    parser.add_argument("--slurm", action="store_true")
    parser.add_argument("--cpus")
    options = parser.parse_args()
    print(f"{os.cpu_count()} processors. The load before: {load()}.", flush=True)
    with tempfile.TemporaryDirectory() as folder:
        options.soak = endless(folder)
        processors = os.sched_getaffinity(0)
        os.sched_setaffinity(0, {max(processors)})
        measured(options)
        os.sched_setaffinity(0, processors)
        if options.slurm:
            print(f"\nAn array of 30 pieces of nothing on three nodes of this machine: {array_of_nothing(options):.2f} s a piece.")
    print(f"\nThe load after: {load()}.")


def measured(options):
    """Measures pieces, and reckons."""
    seeds, steps, checks, functions = [250, 500, 1000, 2000], [250, 500, 1000, 2000], [20, 40, 80, 160], [100, 200, 400, 800]
    start = of_soak(1, 1, options)
    print(f"\nThe start of a piece (one seed of one step): {start:.3f} s of a processor.", flush=True)
    seed = table("Seeds, of 1,000 steps", seeds, [of_soak(count, 1000, options) for count in seeds], "seed of 1,000 steps")
    table("Steps of each of 1,000 seeds", steps, [of_soak(1000, count, options) for count in steps], "step of each of 1,000 seeds")
    small = [of_checks(count, 10, options) for count in checks]
    module = table(f"Modules of 10 functions ({small[0][1]:,} bytes)", checks, [took for took, _ in small], "module of 10 functions")
    large = [of_checks(20, count, options) for count in functions]
    table(f"Functions of each of 20 modules (at last {large[-1][1]:,} bytes)", functions, [took for took, _ in large], "function of each of 20 modules")
    print("\n| What | Seconds of a piece | In a piece | Pieces | Processor hours | Start of a piece (%) |\n|---|---:|---:|---:|---:|---:|")
    reckoned("10^9 seeds of 1,000 steps", 10**9, seed, start)
    reckoned("10^6 modules of 10 functions", 10**6, module, start)
    reckoned("10^6 modules of 100 functions", 10**6, (large[0][0] - start) / 20, start)
    print(f"\nTo join the answers of 10^6 modules: {1e6 * of_joining(options):.1f} s of a processor.", flush=True)


if __name__ == "__main__":
    main()
