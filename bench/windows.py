#!/usr/bin/env python3
"""Compares what `dgc replay --json --from N` writes of runs with what `--json` writes of the whole runs.

    windows.py DGC [--every N] [ROW ..]      the runs are those of the rows of crates/dgc_tests that replay a trace

The lines that come before step N are made here from those of the whole run, as docs/STEPS.md says: what the globals and the cells
hold, the stages, and the frames. Prints the first line of a run that differs, and ends with 1 where there is one. Of each run each
step is the first one once, or every Nth.
"""
import argparse
import json
import os
import subprocess
import sys
import tempfile

TOP = os.path.dirname(os.path.dirname(os.path.abspath(__file__)))
ROWS = os.path.join(TOP, "crates", "dgc_tests", "data", "rows")


class Heap:
    """What holds between two steps."""

    def __init__(self, lines):
        run = lines[0]
        self.words, self.colours, self.kinds = {}, {0: "black"}, {0: 0}
        for line in lines:
            if line["kind"] == "pool":
                for cell in range(line["first"], line["first"] + line["cells"]):
                    self.colours[cell] = "free"
            if line["kind"] == "global":
                self.words[0, self.kinds[0]] = line["value"]
                self.kinds[0] += 1
        assert len(self.colours) == run["cells"]
        threads = [line["thread"] for line in lines if line["kind"] == "thread"]
        self.stages, self.last = {None: 0} | {thread: 0 for thread in threads}, None
        self.frames = []

    def step(self, step):
        event, cell = step["event"], step["cell"]
        if step["thread"] is None:
            self.last = event
        if event in ("store", "store_with_barrier"):
            self.words[cell, step["word"]] = step["value"]
        if event == "clear":
            self.words[cell, step["word"]] = 0
        if event == "post":
            self.stages[None] = step["stage"]
            if step["stage"] % 3 == 1:
                self.colours = {cell: "free" if colour == "free" else "white" for cell, colour in self.colours.items()}
        if event in ("answer", "enter"):
            self.stages[step["thread"]] = step["stage"]
        if event == "end":
            self.stages[step["thread"]] = None
        if cell is not None and step["colour"] is not None:
            self.colours[cell] = step["colour"]

    def frame(self, frame):
        self.frames = [old for old in self.frames if old["thread"] != frame["thread"] or old["frames"] < frame["frames"]]
        self.frames.append(frame)


def before(lines, first):
    """The lines that come before this step, by those of the whole run, and those from it on. The words of cells are kept apart."""
    heap, heads, rest = Heap(lines), [], []
    for line in lines:
        if line["kind"] == "step" and line["step"] < first:
            heap.step(line)
        elif line["kind"] == "frame" and line["after"] < first:
            heap.frame(line)
        elif line["kind"] in ("step", "frame"):
            rest.append(line)
        else:
            heads.append(dict(line))
    heads[0]["first"] = first
    number = 0
    for line in heads:
        if line["kind"] == "global":
            line["value"] = heap.words[0, number]
            number += 1
    state = []
    if first > 1:
        state = [{"kind": "cell", "cell": cell, "colour": colour} for cell, colour in sorted(heap.colours.items()) if colour != "free"]
        state += [{"kind": "stage", "thread": thread, "stage": stage, "event": heap.last if thread is None else None} for thread, stage in heap.stages.items()]
    frames = [frame | {"after": first - 1} for frame in heap.frames]
    return heap.words, heads + state + frames + rest


def without_words(line, words, wrong):
    """A line without the words of a cell, which have to be those that were stored; of words that were not 0 is held."""
    if line["kind"] != "cell":
        return line
    if line["cell"] and [words.get((line["cell"], word), 0) for word in range(len(line["words"]))] != line["words"]:
        wrong.append(line)
    return {name: member for name, member in line.items() if name != "words"}


def written(dgc, folder, words, *more):
    with tempfile.NamedTemporaryFile(suffix=".jsonl") as file:
        done = subprocess.run([dgc, *words, "--json", file.name, *more], cwd=folder, capture_output=True, timeout=600)
        return [json.loads(line) for line in file] if done.returncode in (0, 1) else []


def difference(dgc, folder, words, whole, first):
    """The first line that is not as it has to be where this step is the first one."""
    stored, wanted = before(whole, first)
    wrong = []
    found = [without_words(line, stored, wrong) for line in written(dgc, folder, words, "--from", str(first))]
    for at in range(max(len(found), len(wanted))):
        one, other = found[at:at + 1], wanted[at:at + 1]
        if one != other:
            return f"{one} is not {other}"
    return f"words of {wrong[0]}" if wrong else ""


def main():
    words = argparse.ArgumentParser(description=__doc__.split("\n")[0])
    words.add_argument("dgc")
    words.add_argument("rows", nargs="*")
    words.add_argument("--every", type=int, default=1)
    asked = words.parse_args()
    dgc, windows, runs, wrong = os.path.abspath(asked.dgc), 0, 0, 0
    for name in asked.rows or sorted(os.listdir(ROWS)):
        folder = os.path.join(ROWS, name)
        line = open(os.path.join(folder, "args")).read().splitlines()
        if line[:1] != ["replay"] or {"--help", "--json", "--from", "--to"} & set(line):
            continue
        line = [word for word in line if word != "--steps"]
        whole = written(dgc, folder, line, "--from", "1")
        if not whole:
            continue
        runs += 1
        for first in range(1, whole[0]["steps"] + 2, asked.every):
            windows += 1
            told = difference(dgc, folder, line, whole, first)
            if told:
                wrong += 1
                print(f"{name}: from {first}: {told}"[:600])
                break
    print(f"{runs} runs, {windows} first steps, {wrong} runs not as wanted")
    sys.exit(1 if wrong or not runs else 0)


main()
