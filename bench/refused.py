#!/usr/bin/env python3
"""Refuses each request for memory of `dgc` in turn, and looks at what it prints.

    refused.py DGC [--short] [--only WORD ..] [--every N]

Each command is run once for each request for memory that it makes: that one is refused (refuse.c). Then it is done again, and that
request and all after it are refused. Each run has to end with `error memory` and status 3, or with what it prints where memory is
ample. Of `run` and `watch` the turns and cycles of the collector may differ, and a thread may end for want of memory. An explanation may be
`no memory to explain it`. Of a list a pair may have `error memory`, and the pairs after one may be left out. A file that `--json` or `--save` names has to be as it is where memory is ample, or not there.

The commands are those of the walkthrough, and each one on five modules of rows, with 1 worker and 4, with explanations and without,
and a session of ten edits. With --short it is the five modules and the session alone, and only every 7th request is refused.
With --every it is every Nth one. Many runs are made in one process (cases.c). Prints for each command how many requests it makes, and how
its runs ended. Ends with status 1 where a run ends in another way, or where a command never says `error memory`.
DGC has to be built by `rt run`, and not by `rt try`. For use by hand.
"""
import argparse
import os
import re
import sys
import tempfile
from dataclasses import dataclass

from cases import Case, Runner

HERE = os.path.dirname(os.path.abspath(__file__))
TOP = os.path.dirname(HERE)
SWAP = f"{TOP}/examples/swap/typed"
ROWS = f"{TOP}/crates/dgc_tests/data/rows"
KEPT = f"{ROWS}/register_kept_for_ever"
SAFE, RACE = f"{SWAP}/barrier.ll {SWAP}/two.trace", f"{SWAP}/plain.ll {SWAP}/race.trace"
RECORDED = ("module.ll", "trace", "record")
SECONDS, BATCH, SHORT_EVERY = 60, 200, 7
# how many wrong runs of a command are told
MOST_TOLD = 3
COMMANDS = {
    "check": f"check {SWAP}/barrier.ll {SWAP}/swap.cert",
    "check, refused": f"check {SWAP}/plain.ll {SWAP}/swap.cert",
    "check, two workers": f"check {SWAP}/barrier.ll {SWAP}/swap.cert --workers 2",
    "check, JSON": f"check {SWAP}/plain.ll {SWAP}/swap.cert --json saved",
    "check, SARIF": f"check {SWAP}/plain.ll {SWAP}/swap.cert --sarif saved",
    "make": f"make {SWAP}/barrier.ll",
    "make, no answer": f"make --why {ROWS}/front_end_sum_refused/module.ll",
    "recheck": "recheck " + " ".join(f"{ROWS}/edits_of_sections/module.{end}" for end in ("ll", "cert", "edits")),
    "recheck, code": "recheck " + " ".join(f"{ROWS}/edits_of_a_signature/module.{end}" for end in ("ll", "cert", "edits")),
    "recheck, new type": "recheck " + " ".join(f"{ROWS}/edit_mentions_a_new_type/module.{end}" for end in ("ll", "cert", "edits")),
    "recheck, a line": "recheck " + " ".join(f"{ROWS}/edits_name_a_line/module.{end}" for end in ("ll", "cert", "edits")),
    "recheck, JSON": "recheck " + " ".join(f"{ROWS}/explained_edits_refused/module.{end}" for end in ("ll", "cert", "edits")) + " --json saved",
    "replay": f"replay {SAFE}",
    "replay, broken": f"replay {RACE}",
    "replay, its steps": f"replay {RACE} --steps",
    "replay, JSON": f"replay {RACE} --json saved",
    "soak": f"soak --seeds 3 --steps 50 {SAFE}",
    "soak, few switches": f"soak --seeds 3 --steps 50 --bias {SAFE}",
    "soak, broken": f"soak --first 4 --seeds 1 --steps 156 --shrink --tries 9 {SWAP}/plain.ll {SWAP}/two.trace",
    "hunt": f"hunt --seeds 3 --steps 50 {SWAP}/barrier.ll",
    "hunt, broken": f"hunt --tries 9 {ROWS}/hunted_stores_without_the_barrier/module.ll",
    "soak, saved": f"soak {KEPT}/module.ll {KEPT}/module.trace --seeds 60 --steps 45 --save saved",
    "run": f"run {SWAP}/barrier.ll {SWAP}/swap.cert {SWAP}/two.trace --steps 50 --turns 1000",
    "watch": f"watch {SAFE} --steps 50 --turns 1000",
    "watch, broken": f"watch {SWAP}/plain.ll {SWAP}/two.trace",
    "watch, a late thread": "watch " + " ".join(f"{ROWS}/watch_names_a_late_thread/module.{end}" for end in ("ll", "trace")),
    "conform": "conform " + " ".join(f"{ROWS}/record_of_a_cycle/{name}" for name in RECORDED),
    "conform, no": "conform " + " ".join(f"{ROWS}/record_explained_of_a_look/{name}" for name in RECORDED),
    "conform, explained": "conform " + " ".join(f"{ROWS}/record_explained_of_a_look/{name}" for name in RECORDED) + " --explain always",
    "explain": "explain",
    "explain K6": "explain K6",
    "help": "--help",
    "help of check": "check --help",
    "another command": "chek module.ll",
    "a word too many": "check one two three",
    "migrate": f"migrate {SWAP}/barrier.ll",
    "migrate, certificate": f"migrate {SWAP}/barrier.ll {SWAP}/swap.cert",
}
# modules that are accepted, the last one with opaque pointers; one that is refused; and rows with edits of one module
ACCEPTED = {"four": "four", "six": "six", "leaf": "edit_of_code", "opaque": "opaque_cell_into_a_slot"}
REFUSED = "registers_over_a_safepoint"
EDITS = ["edit_of_code", "edit_reaches_a_safepoint", "edit_calls_a_later_function", "edit_with_two_functions", "edit_mentions_a_new_type",
         "edit_of_an_unknown_function", "edit_refused_by_its_section", "edit_of_code_with_other_blocks", "edit_with_two_faults",
         "edit_of_code_and_section"]
EXPLAINED = "--explain always"
NO_EXPLANATION = b"no memory to explain it\n"


def bytes_of(path):
    with open(path, "rb") as file:
        return file.read()


def written(folder, name, text):
    """The path of a file that is written into a folder."""
    path = os.path.join(folder, name)
    with open(path, "wb") as out:
        out.write(text)
    return path


def on_module(folder, name, row):
    """Each command on the module of a row that is accepted, with an edit, a trace and a file of shapes that are written into a folder."""
    base = f"{ROWS}/{row}/module"
    text, certificate = bytes_of(f"{base}.ll"), bytes_of(f"{base}.cert")
    functions = re.findall(rb"(?ms)^(define [^@]*@(\w+)\(([^)]*)\).*?^}\n)", text)
    starts = b"".join(b"start @%s%s\n" % (function, b" 1" if given else b"") for _, function, given in functions
                      if b"*" not in given and b"ptr" not in given)
    edits = written(folder, f"{name}.edits", b"edit code @%s\n%s.\n" % (functions[0][1], functions[0][0]))
    trace = written(folder, f"{name}.trace", b"trace 1\npool Node 2\n%ssteps\nt 0 9\nc 3\nt 0 9\nend\n" % starts)
    shaped = ""
    if certificate.startswith(b"cert 2"):
        lines = [line for line in certificate.splitlines(True)[1:] if line.split()[0] in (b"layout", b"global", b"root")]
        shaped = " --shapes " + written(folder, f"{name}.shapes", b"shapes 1\n" + b"".join(lines))
    both, played = f"{base}.ll {base}.cert", f"{base}.ll {trace}{shaped}"
    commands = {
        "check": f"check {both}", "check, 4 workers": f"check {both} --workers 4",
        "make": f"make {base}.ll{shaped}", "recheck": f"recheck {both} {edits}",
        "replay": f"replay {played}", "replay, its steps": f"replay {played} --steps", "replay, JSON": f"replay {played} --json saved",
        "soak": f"soak {played} --seeds 3 --steps 30", "run": f"run {both} {trace} --steps 50 --turns 500",
        "watch": f"watch {played} --steps 50 --turns 500", "lower": f"lower {both}", "lower, unchecked": f"lower {base}.ll{shaped}",
        "migrate": f"migrate {base}.ll", "migrate, certificate": f"migrate {both}",
    }
    explained = {f"{command}, explained": f"{commands[command]} {EXPLAINED}" for command in ("check", "make", "recheck", "replay", "run")}
    return {f"{command}, {name}": words for command, words in {**commands, **explained}.items()}


def on_refused(folder):
    """The commands that say no of the module of a row, with all refusals or the first one, and a broken replay."""
    base = f"{ROWS}/{REFUSED}/module"
    both, trace = f"{base}.ll {base}.cert", f"{ROWS}/three_touches_blue/module.trace"
    no_edits = written(folder, "three.edits", b"")
    commands = {
        "check": f"check {both}", "check, 4 workers": f"check {both} --workers 4", "check, all": f"check {both} --all",
        "make": f"make {base}.ll --why",
        "recheck": f"recheck {both} {no_edits}", "replay": f"replay {base}.ll {trace}", "run": f"run {both} {trace}",
        "check, not read": f"check {both.replace('.ll', '.cert', 1)}",
    }
    explained = {f"{command}, explained": f"{words} {EXPLAINED}" for command, words in commands.items()}
    return {f"{command}, refused three": words for command, words in {**commands, **explained}.items()}


def on_each_module(folder):
    """Each command on each of a few modules, and a session of ten edits."""
    commands = {}
    for name, row in ACCEPTED.items():
        commands |= on_module(folder, name, row)
    commands |= on_refused(folder)
    pairs = "".join(f"{ROWS}/{row}/module.ll\t{ROWS}/{row}/module.cert\n" for row in [*ACCEPTED.values(), REFUSED])
    listed = f"check-list {written(folder, 'pairs', pairs.encode())}"
    commands |= {"check-list": listed, "check-list, 4 workers": f"{listed} --workers 4"}
    session = written(folder, "session.edits", b"".join(bytes_of(f"{ROWS}/{row}/module.edits") for row in EDITS))
    words = f"recheck {ROWS}/edit_of_code/module.ll {ROWS}/edit_of_code/module.cert {session}"
    return {**commands, "recheck, ten edits": words, "recheck, ten edits, explained": f"{words} {EXPLAINED}"}


@dataclass
class Answer:
    """What a run has to say where memory is ample, and how one ends that finds none."""
    ample: tuple
    without: tuple = (3, b"", b"error memory\n", None)

    @staticmethod
    def of(ended):
        """The status, the outputs and the file of a run. The turns and cycles of the collector are left out."""
        return ended.signal or ended.status, re.sub(rb"(?m)^collector turns \d+ cycles \d+$", b"collector", ended.stdout), ended.stderr, ended.saved

    def is_ample(self, answer):
        """Whether a run ended as where memory is ample, but for threads that ended for want of it, and for an explanation."""
        (status, out, err, saved), (ample_status, ample_out, ample_err, ample_saved) = answer, self.ample
        lines, wanted = out.split(b"\n"), ample_out.split(b"\n")
        is_alike = len(lines) == len(wanted) and all(
            line == other or re.fullmatch(rb"t \d+ memory", line) and line.split()[:2] == other.split()[:2] for line, other in zip(lines, wanted))
        is_told = err == ample_err or err.endswith(NO_EXPLANATION) and ample_err.startswith(err.removesuffix(NO_EXPLANATION))
        return status == ample_status and is_alike and is_told and saved == ample_saved

    def is_list(self, answer):
        """Whether the list of a run was answered so: a pair may have found no memory, and where the run found none the other pairs may be left out."""
        (status, out, err, _), lines, wanted = answer, answer[1].splitlines(), self.ample[1].splitlines()
        are_short = [line == other.split(b"\t")[0] + b"\terror memory" for line, other in zip(lines, wanted)]
        is_front = len(lines) <= len(wanted) and all(short or line == other for short, line, other in zip(are_short, lines, wanted))
        is_ended = err.endswith(b"error memory\n") or len(lines) == len(wanted) and any(are_short)
        return status == 3 and is_front and is_ended


class Refuser:
    """Runs a program with some request refused."""

    def __init__(self, program, folder):
        self.runner = Runner(program, folder, SECONDS, "refuse.c")
        self.wrong, self.runs = 0, 0

    def ends(self, words, are_all_refused, every):
        """The numbers of requests, each with how a run ends in which it is refused; up to the first one that is not made."""
        number = 1
        while True:
            numbers = range(number, number + BATCH * every, every)
            for one, ended in zip(numbers, self.runner.run_all([Case(words.split(), {}, one, are_all_refused) for one in numbers])):
                if not ended.refused and not ended.signal:
                    return
                yield one, ended
            number += BATCH * every

    def refuse_each(self, name, words, every, ways=(False, True), without=None):
        """Refuses each request in turn, alone and with all after it, and counts the runs that end wrongly."""
        answer = Answer(Answer.of(self.runner.run_all([Case(words.split())])[0]))
        answer.without = without or answer.without
        refused, same, wrong, most = 0, 0, 0, 0
        for are_all_refused in ways:
            for number, ended in self.ends(words, are_all_refused, every):
                found, most = Answer.of(ended), max(most, number)
                is_right = answer.is_ample(found) or words.startswith("check-list") and answer.is_list(found)
                refused += found == answer.without
                same += found != answer.without and is_right
                if found != answer.without and not is_right:
                    wrong += 1
                    if wrong <= MOST_TOLD:
                        print(f"{name}, request {number}{' and all after it' if are_all_refused else ''}: {found}")
        if not refused:
            wrong += 1
            print(f"{name}: no run ended with error memory")
        self.wrong += wrong
        self.runs += refused + same + wrong
        print(f"{name:40} status {answer.ample[0]}, {most:6,} requests: {refused:6,} times error memory, {same:5,} times the same, {wrong} wrong",
              flush=True)


def main():
    options = argparse.ArgumentParser(description=__doc__.split("\n")[0])
    options.add_argument("dgc")
    options.add_argument("--short", action="store_true")
    options.add_argument("--only", nargs="+", default=[""])
    options.add_argument("--every", type=int)
    options = options.parse_args()
    every = options.every or (SHORT_EVERY if options.short else 1)
    with tempfile.TemporaryDirectory(dir="/dev/shm" if os.path.isdir("/dev/shm") else None) as folder:
        refuser = Refuser(os.path.abspath(options.dgc), folder)
        for name, words in {**({} if options.short else COMMANDS), **on_each_module(folder)}.items():
            if any(word in name for word in options.only):
                refuser.refuse_each(name, words, every)
    print(f"{refuser.runs:,} runs in which memory was refused, {refuser.wrong} wrong")
    sys.exit(1 if refuser.wrong else 0)


if __name__ == "__main__":
    main()
