#!/usr/bin/env python3
"""Records native runs of accepted modules beside the runtime of runtime/, and asks `dgc conform` and `dgc replay` of each.

    native_records.py DGC [--steps N] [--same-order N] [--seed S] [--version V]

Drawn are the program of examples/native or the module of examples/swap, the number of threads, how many of them come late, the pools,
the rounds, and how often a step waits. Half of the runs use the runtime's own order of tries and looks, and their records have to
conform. The others have the order of `dgc run` (SAME_ORDER): they conform too, and `dgc replay` of the trace that they leave makes the
same steps on shared words, one by one, and its threads return the same. Runs go on until N steps were seen of each kind (of the first
10,000,000, of the second 1,000,000). Prints how many runs and steps were the same, and ends with 1 at the first that is not.
"""
import argparse
import json
import os
import random
import struct
import subprocess
import sys
import tempfile

import natively

# The kind of an entry (docs/RECORDS.md) and the events by which `dgc replay --json` tells of such a step (docs/STEPS.md).
KINDS = {
    1: ("read",), 2: ("read_old",), 3: ("mark", "mark_root"), 4: ("store_with_barrier",), 5: ("store",), 6: ("claim",), 7: ("taken",), 8: ("poll", "see_posted"),
    9: ("answer", "end"), 10: ("arrive",), 11: ("enter",), 12: ("look_again",), 21: ("post",), 22: ("answered", "ended", "wait"),
    23: ("mark_globals", "mark_found"), 24: ("look", "sweep"), 25: ("scan",), 26: ("blacken",), 27: ("clear",), 28: ("free",),
}
WITH_VALUE = {1, 2, 4, 5, 25}
WITH_CELL = {3, 6, 7, 23, 24, 26, 28}
NO_STEP = {"local", "nothing"}


class Drawn:
    """A drawn run: what runs, its trace, and the environment."""

    def __init__(self, draw, programs):
        self.name = draw.choice(list(programs))
        threads, length = draw.randrange(1, 5), draw.choice([3, 6, 10])
        late = draw.choice([0, 0, threads // 2])
        room = {"lists": [4 * length * threads + draw.choice([3, 20])], "trees": [2 * length * threads + draw.choice([2, 10])],
                "queues": [2 * length * threads + draw.choice([5, 20]), 4 * threads + 3], "swap": [draw.choice([2, 3, 5, 9])]}[self.name]
        line = ["@swap"] if self.name == "swap" else ["@work", str(draw.choice([2, 4, 8, 40])), str(length)]
        starts = [" ".join(line + ([str(draw.getrandbits(20))] if len(line) > 1 else [])) for _ in range(threads)]
        self.trace = natively.trace(list(zip(programs[self.name], room)), starts[late:], starts[:late])
        self.environment = {**os.environ, "DG_STALL": str(draw.choice([0, 3, 10, 30, 100])), "DG_LIMIT": str(60000 if self.name == "swap" else 400000)}


def entries(path):
    """The steps of a record: actor, kind, word, cell, value."""
    with open(path, "rb") as file:
        data = file.read()
    return [entry for entry in struct.iter_unpack("<BBHIQ", data[:len(data) // 16 * 16]) if entry[1] != 13]


def steps_of(path):
    """The steps on shared words that a replay made."""
    with open(path, encoding="utf-8") as file:
        for line in file:
            step = json.loads(line)
            if step.get("kind") == "step" and step["event"] not in NO_STEP:
                yield step


def is_same(entry, step):
    """Whether a step of the replay is that of a record's entry."""
    actor, kind, word, cell, value = entry
    if step["event"] not in KINDS[kind] or (255 if step["thread"] is None else step["thread"]) != actor:
        return False
    if kind in WITH_VALUE:
        return (step["cell"], step["word"], step["value"] or 0) == (cell, word, value)
    if kind in WITH_CELL:
        return step["cell"] == cell
    return (step["cell"], step["word"]) == (cell, word) if kind == 27 else kind != 21 or step["stage"] == value


def compare(words, base, module, ended):
    """The first difference between a record and the replay of its trace, or None."""
    command = [words.dgc, "replay", module, base + ".steps", *natively.shapes_of(module[:-3]), "--json", base + ".json", "--from", "1"]
    ran = subprocess.run(command, capture_output=True, text=True)
    if not ran.stdout.startswith("sound"):
        return f"the replay says {ran.stdout[:200]}{ran.stderr[:200]}"
    recorded, made = entries(base + ".record"), list(steps_of(base + ".json"))
    for at, (entry, step) in enumerate(zip(recorded, made)):
        if not is_same(entry, step):
            return f"step {at + 1}: the record has {entry}, the replay {step}"
    if len(recorded) != len(made):
        return f"{len(recorded)} steps were recorded, and {len(made)} replayed"
    ends = [line for line in ran.stdout.splitlines() if line.startswith("t ")]
    return None if not ended or ended == ends else f"threads ended {ended}, in the replay {ends}"


def one(words, folder, programs, draw, is_same_order):
    """How many steps a drawn run has that are as they should be. Ends the program at one that is not."""
    drawn, base = Drawn(draw, programs), os.path.join(folder, "run")
    module = os.path.join(folder, drawn.name + ".ll")
    with open(base + ".trace", "w") as out:
        out.write(drawn.trace)
    command = [os.path.join(folder, drawn.name + (".same" if is_same_order else ".own")), base + ".trace", base + ".record"] + ([base + ".steps"] if is_same_order else [])
    ran = subprocess.run(command, capture_output=True, text=True, env=drawn.environment)
    said = subprocess.run([words.dgc, "conform", module, base + ".trace", base + ".record", *natively.shapes_of(module[:-3])], capture_output=True, text=True)
    fault = None if said.stdout.startswith("conforms") else f"dgc conform says {said.stdout}{said.stderr}"
    if ran.returncode:
        fault = f"status {ran.returncode}: {ran.stderr[-300:]}"
    if not fault and is_same_order:
        fault = compare(words, base, module, [line for line in ran.stdout.splitlines() if line.startswith("t ")])
    if fault:
        print(f"{drawn.name}, DG_STALL={drawn.environment['DG_STALL']}\n{drawn.trace}{fault}")
        sys.exit(1)
    return int(said.stdout.split()[1])


def build(words, folder):
    """The programs of each module, and the layouts of each."""
    programs = {"lists": ["struct.node"], "trees": ["struct.tree"], "queues": ["struct.node", "struct.queue"], "swap": ["Node"]}
    for name in programs:
        base = os.path.join(folder, name)
        if name == "swap":
            for source, to in (("barrier.ll", ".ll"), ("swap.cert", ".cert"), ("swap.shapes", ".shapes")):
                with open(os.path.join(natively.TOP, "examples", "swap", source)) as read, open(base + to, "w") as out:
                    out.write(read.read())
        else:
            natively.module_of_c(words.dgc, os.path.join(natively.TOP, "examples", "native", name + ".c"), base, words.version)
        made = natively.compiled(natively.lowered(words.dgc, [base + ".ll", base + ".cert"], base + ".rec", records=True), base + ".rec", words.version)
        natively.linked([made], base + ".own", words.version, ["-DRECORD"])
        natively.linked([made], base + ".same", words.version, ["-DRECORD", "-DSAME_ORDER"])
    return programs


def main():
    parser = argparse.ArgumentParser(description=__doc__.split("\n")[0])
    parser.add_argument("dgc", type=os.path.abspath)
    parser.add_argument("--steps", type=int, default=10000000)
    parser.add_argument("--same-order", type=int, default=1000000)
    parser.add_argument("--seed", type=int, default=0)
    parser.add_argument("--version", default=natively.newest())
    words = parser.parse_args()
    draw = random.Random(words.seed)
    with tempfile.TemporaryDirectory() as folder:
        programs = build(words, folder)
        for is_same_order, limit, what in ((False, words.steps, "conform"), (True, words.same_order, "conform, and dgc replay makes the same")):
            runs = steps = 0
            while steps < limit:
                steps += one(words, folder, programs, draw, is_same_order)
                runs += 1
            print(f"{runs} runs: their {steps:,} steps {what}", flush=True)


if __name__ == "__main__":
    main()
