#!/usr/bin/env python3
"""Times the programs of examples/native beside the collector of runtime/, beside malloc and beside Boehm's collector.

    native.py DGC [--runs R] [--rounds N] [--threads T] [--version V]

Each program does the same work three times: as a module that `dgc check` accepts, natively beside the runtime; as C with calloc, where
no cell is ever freed; and as C with Boehm's collector (Debian: libgc-dev). Runs of the three take turns. First come many small rounds,
with almost nothing live, for the processor time. Then comes work with 100,000 live cells, for pauses. All three have to return the same.
Prints two tables: the least processor time of R runs, and of pauses the middle and the longest of R runs. On a quiet machine of four
processors it takes two to three minutes. Ends with 1 where results differ.
"""
import argparse
import os
import subprocess
import sys
import tempfile

import natively

PROGRAMS = {"lists": ["struct.node"], "trees": ["struct.tree"], "queues": ["struct.node", "struct.queue"]}
CELLS = 400000
LENGTH = 100
LIVE = 100000
LIVE_ROUNDS = 40


def build(words, name, folder):
    """The three programs of a C file."""
    base, path = os.path.join(folder, name), os.path.join(natively.TOP, "examples", "native", name + ".c")
    module = natively.module_of_c(words.dgc, path, base, words.version)
    built = {"native": natively.program(words.dgc, module, base + ".native", words.version)}
    beside = os.path.join(natively.TOP, "bench", "native")
    common = [f"clang-{words.version}", "-O2", "-w", "-pthread", f'-DPROGRAM="{path}"', os.path.join(beside, "alloc.c"), os.path.join(beside, "main.c")]
    for kind, more in (("malloc", []), ("boehm", ["-DBOEHM", "-lgc"])):
        built[kind] = f"{base}.{kind}"
        natively.done([*common, *more, "-o", built[kind]])
    return built


def run(words, programs, name, kind, work):
    """What the threads returned, and the numbers that a program prints. work: rounds and length."""
    if kind == "native":
        path = programs[kind] + ".trace"
        with open(path, "w") as out:
            out.write(natively.trace([(pool, CELLS) for pool in PROGRAMS[name]], [f"@work {work[0]} {work[1]} {number + 1}" for number in range(words.threads)]))
        command = [programs[kind], path]
    else:
        command = [programs[kind], str(words.threads), str(work[0]), str(work[1])]
    ran = subprocess.run(command, capture_output=True, text=True)
    if ran.returncode:
        sys.exit(f"{' '.join(command)}: status {ran.returncode} {ran.stderr}")
    numbers = ran.stderr.split() + ran.stdout.splitlines()[-1].split()
    found = {word: int(number) for word, number in zip(numbers[::2], numbers[1::2]) if number.isdigit()}
    return [line for line in ran.stdout.splitlines() if line.startswith("t ")], found


def runs_of(words, programs, name, work):
    """The numbers of R runs of each kind, which take turns."""
    found, wanted = {"native": [], "malloc": [], "boehm": []}, None
    for _ in range(words.runs):
        for kind, numbers in found.items():
            results, these = run(words, programs, name, kind, work)
            wanted = wanted or results
            if results != wanted:
                print(f"{name}: {kind} returns {results}, and not {wanted}")
                sys.exit(1)
            numbers.append(these)
    return found


def least(numbers, *keys):
    return min(sum(each[key] for key in keys) for each in numbers) / 1e6


def middle(numbers, key):
    return sorted(each[key] for each in numbers)[len(numbers) // 2]


def most(numbers, key):
    return max(each[key] for each in numbers)


def times_row(name, found):
    native, malloc, boehm = found["native"], least(found["malloc"], "threads_ns"), least(found["boehm"], "process_ns")
    alone, whole = least(native, "threads_ns"), least(native, "threads_ns", "collector_ns")
    last = native[-1]
    return (f"| {name} | {alone:,.0f} | {whole:,.0f} | {malloc:,.0f} | {boehm:,.0f} | {alone / malloc:.2f} | {whole / malloc:.2f} | {whole / boehm:.2f} | "
            f"{last['claims']:,} | {middle(native, 'frees'):,} | {middle(native, 'cycles')} |")


def pauses_row(name, found):
    native, boehm = found["native"], found["boehm"]
    return (f"| {name} | {middle(native, 'longest_answer_ns') / 1e3:,.1f} | {most(native, 'longest_answer_ns') / 1e3:,.1f} | {middle(native, 'longest_request_ns') / 1e3:,.0f} | "
            f"{most(native, 'longest_request_ns') / 1e3:,.0f} | {middle(boehm, 'longest_stop_ns') / 1e3:,.0f} | {most(boehm, 'longest_stop_ns') / 1e3:,.0f} | "
            f"{middle(boehm, 'stops')} | {middle(native, 'cycles')} | {middle(native, 'longest_cycle_ns') / 1e6:,.1f} |")


def goals(times, pauses):
    """Each goal, and whether it is met."""
    for name in ("lists", "trees"):
        native, malloc = times[name]["native"], least(times[name]["malloc"], "threads_ns")
        for words, keys, goal in (("without", ("threads_ns",), 1.5), ("with", ("threads_ns", "collector_ns"), 2.0)):
            ratio = least(native, *keys) / malloc
            yield f"{name}, {words} the collector's thread: {ratio:.2f} of malloc's processor time; goal {goal}: {'met' if ratio <= goal else 'not met'}"
    for name, found in pauses.items():
        pause = middle(found["boehm"], "longest_stop_ns")
        for what, key, goal in (("the longest answer", "longest_answer_ns", 0.01), ("the longest dg_alloc", "longest_request_ns", 1)):
            ratio = middle(found["native"], key) / max(pause, 1)
            yield f"{name}, {what}: {ratio:.4f} of Boehm's longest pause; goal {goal}: {'met' if ratio <= goal else 'not met'}"


def main():
    parser = argparse.ArgumentParser(description=__doc__.split("\n")[0])
    parser.add_argument("dgc", type=os.path.abspath)
    parser.add_argument("--runs", type=int, default=7)
    parser.add_argument("--rounds", type=int, default=20000)
    parser.add_argument("--threads", type=int, default=4)
    parser.add_argument("--version", default=natively.newest())
    words = parser.parse_args()
    with tempfile.TemporaryDirectory() as folder:
        programs = {name: build(words, name, folder) for name in PROGRAMS}
        times = {name: runs_of(words, programs[name], name, (words.rounds, LENGTH)) for name in PROGRAMS}
        pauses = {"trees": runs_of(words, programs["trees"], "trees", (LIVE_ROUNDS, LIVE // words.threads))}
    print(f"{words.threads} threads, {words.rounds} rounds of {LENGTH}, {CELLS} cells a pool; processor time in ms, the least of {words.runs} runs")
    print("| | threads | with the collector's | malloc | Boehm, whole process | threads / malloc | whole / malloc | whole / Boehm | cells claimed | freed | cycles |")
    print("|---|---:|---:|---:|---:|---:|---:|---:|---:|---:|---:|")
    for name, found in times.items():
        print(times_row(name, found))
    print(f"\n{LIVE:,} live cells, {LIVE_ROUNDS} rounds; wall time in us, the middle and the most of the longest of each of {words.runs} runs")
    print("| | longest answer, middle | most | longest dg_alloc, middle | most | Boehm's longest stop, middle | most | stops | cycles | longest cycle in ms |")
    print("|---|---:|---:|---:|---:|---:|---:|---:|---:|---:|")
    for name, found in pauses.items():
        print(pauses_row(name, found))
    print()
    for line in goals(times, pauses):
        print(line)


if __name__ == "__main__":
    main()
