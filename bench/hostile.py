#!/usr/bin/env python3
"""Runs `dgc` on changed texts, and looks for a run that ends in a way in which none may.

    hostile.py DGC [--seed S] [--cases N] [--first N] [--minutes M] [--only WORD ..] [--keep FOLDER]

Takes the rows of crates/dgc_tests/data (hostile_texts.py), changes one file of one row, and runs the row's command on it, in every third
case with one more option, as `--explain always`. A change is one or a few of these: other bytes, a cut, lines that are moved, left out or
written again, a token of any file in the place of one, a number at a limit, the front of one text with the back of another. The same
seed draws the same cases. A run is wrong that

    ends by a signal, or with a status that is none of 0 to 4, or takes more than 2 s of a processor or more than 1 GB;
    prints what its command does not print with that status, or no explanation where one was asked for;
    says yes of a module whose threads break in a soak of 20 seeds, or of which `dgc watch` names one.

First it makes such runs of the modules that rows refuse, and prints how many break: so much they find. Many cases are run in one
process (cases.c). A case that ends it is run once more in a process of its own. Each wrong case is kept in FOLDER (by default
out/hostile) with its command. Prints how many cases ended with which status, the longest and the largest, and how many cases were
run a second. Ends with status 1 where a case is wrong. For use by hand.
"""
import argparse
import collections
import hashlib
import os
import random
import re
import sys
import tempfile
import time
from dataclasses import dataclass

from cases import Case, Runner
from hostile_texts import changed, read_rows, tokens_of

TOP = os.path.dirname(os.path.dirname(os.path.abspath(__file__)))
ROWS = os.path.join(TOP, "crates", "dgc_tests", "data", "rows")
SECONDS, KILOBYTES = 2.0, 1 << 20
# after this time a run is ended by a signal; other programs may have the processor meanwhile
MOST_SECONDS = 60.0
SEEDS, STEPS, TURNS = 20, 400, 2000
NAME = rb'(?:[-a-zA-Z$._0-9]+|"[^"]*")'
# how many cases are drawn before they are run
BATCH = 200
THREAD = rb"t \d+ (?:absent|ended|stopped|memory|running \d+|returned(?: \d+| null| ref \d+)?)\n"
CAUSE = rb"(?:t \d+|c) (?:wrong|(?:touch|reach)-(?:blue|birth) \d+)\n"
REFUSED = rb"no @(?s:.*) K\d+(?s:.*)\n"
# what `check --all` says where it does not say yes
COUNTED = re.compile(rb"(?:" + REFUSED + rb")?refusals \d+\n")
FAULT = rb"error (?:[LCP]\d+ \d+:\d+(?: (?s:.*?))?|C[56] (?s:.*?)|Y\d(?: (?s:.*?))?|K(?:13|20) t \d+)\n"
# what a run may print on the standard output, by its status; after it come the steps that --steps asks for
PRINTED = {
    "check": {0: rb"yes \d+\n(?:trusts @(?s:.*)\n)?", 1: REFUSED},
    "make": {0: rb"cert [12]\n(?s:.*)", 1: rb"no answer\n"},
    "migrate": {0: rb"(?s:.*)"},
    "recheck": {0: rb"(?:(?s:.*)\n)?(?:\d+ rechecked \d+ )?yes \d+(?: trusts \d+)?\n(?:\d+ refused [LC]\d+\n)*",
                1: rb"(?:(?s:.*)\n)?(?:\d+ rechecked \d+ )?no @(?s:.*) K\d+(?s:.*)\n"},
    "replay": {0: rb"sound \d+\n(?:" + THREAD + rb")*claims \d+ frees \d+ posted \d+\n", 1: rb"broken \d+ " + CAUSE},
    "soak": {0: rb"sound \d+ (?:biased )?seeds\n",
             1: rb"broken (?:biased )?seed \d+ \d+ " + CAUSE + rb"(?:shorter \d+ " + CAUSE + rb"tries \d+\n)?"},
    "run": {0: rb"(?:" + THREAD + rb")*collector turns \d+ cycles \d+\n", 1: REFUSED},
    "watch": {0: rb"(?:" + THREAD + rb")*collector turns \d+ cycles \d+\n", 1: rb"broken t \d+ @(?s:.*) %(?s:.*) \d+ (?:H7|H9|H10|H11|wrong)\n"},
    "conform": {0: rb"conforms \d+\n", 1: rb"no \d+ (?:t \d+|c) H\d+\n"},
    "lower": {0: rb"(?s:.*)", 1: REFUSED},
    "check-list": {status: rb"(?:[^\t\n]+\t(?:yes|no|error) [^\n]*\n)*" for status in range(5)},
}
# what may stand on the standard error beside such an answer
BESIDE = {"lower": b"nothing was checked\n"}
# what it may print on the standard error where there is no answer; an explanation may come after it
FAULTS = {2: FAULT, 3: rb"error memory\n", 4: rb"(?s:error.*)\n"}
PRINTED = {command: {status: re.compile(text) for status, text in by_status.items()} for command, by_status in PRINTED.items()}
FAULTS = {status: re.compile(text) for status, text in FAULTS.items()}
# of how many cases in a hundred this is the command
SHARES = {"check": 32, "recheck": 12, "replay": 12, "make": 9, "run": 7, "watch": 8, "conform": 5, "soak": 5, "migrate": 4, "lower": 4, "check-list": 2}
# options that a case may have beside those of its row
OPTIONS = {
    "check": [["--explain", "always"], ["--explain", "always"], ["--workers", "4"], ["--all"]],
    "make": [["--explain", "always"], ["--why"]],
    "recheck": [["--explain", "always"]],
    "replay": [["--explain", "always"], ["--steps"], ["--json", "steps.json"]],
    "soak": [["--save", "saved.trace"], ["--bias"], ["--shrink", "--tries", "20"]],
    "run": [["--explain", "always"]],
    "watch": [["--explain", "always"]],
    "conform": [["--explain", "always"]],
    "check-list": [["--explain", "always"], ["--workers", "4"]],
    "lower": [["--record"]],
}


def with_option(draw, words):
    """The words of a row's command, in every third case with one more option."""
    more = draw.choice(OPTIONS.get(words[0], [[]]))
    return words + more if draw.random() < 0.33 and more and more[0] not in words else words


def is_form(text, form, may_go_on):
    """Whether a text is of this form, or goes on after it where it may."""
    return bool(form.match(text) if may_go_on else form.fullmatch(text))


def is_answer(words, ended):
    """Whether a command may print this on both outputs with this status."""
    is_explained, command = "always" in words, words[0]
    if ended.status > 1 and not (command == "check-list" and ended.stdout):
        return is_form(ended.stderr, FAULTS[ended.status], is_explained) and not ended.stdout
    form = COUNTED if "--all" in words and ended.status == 1 else PRINTED[command].get(ended.status)
    may_say_more = is_explained or command == "make" and ended.status == 1 or BESIDE.get(command) == ended.stderr
    return form and is_form(ended.stdout, form, command == "replay" and "--steps" in words) and (may_say_more or not ended.stderr)


def fault_of(words, ended):
    """Why a run of a command may not end so, or nothing."""
    if ended.signal:
        return f"signal {ended.signal}"
    if ended.seconds > SECONDS:
        return f"{ended.seconds:.1f} s"
    if ended.kilobytes > KILOBYTES:
        return f"{ended.kilobytes // 1024} MB"
    if ended.status not in range(5):
        return f"status {ended.status}"
    if not is_answer(words, ended):
        return "another text"
    return "no explanation" if "always" in words and not is_told(words, ended) else ""


def prints_none(words):
    """Whether a check may print no refusal, and so explains none."""
    return any(word == "--limit" and most.isdigit() and int(most) == 0 for word, most in zip(words, words[1:]))


def is_told(words, ended):
    """Whether an explanation came with an answer that wants one. A thread that may not begin is not explained, and what breaks a run is not."""
    if ended.status == 1:
        return words[0] in ("replay", "soak", "watch") or prints_none(words) or bool(ended.stderr)
    return ended.status != 2 or ended.stderr.startswith(b"error K") or ended.stderr.count(b"\n") > 1


def shapes_in(certificate):
    """
    A text of the shapes of a certificate: its lines between the first one and the first section, but for those of functions outside, if it
    is of opaque text. One of typed text that has numbers of layouts is such a text itself.
    """
    lines = [line for line in re.split(rb"\r?\n", certificate) if line.split(b";")[0].strip()]
    if not lines or lines[0].split(b";")[0].split() != [b"cert", b"2"]:
        return certificate if any(line.split()[0] == b"number" for line in lines) else b""
    sections = [number for number, line in enumerate(lines) if line.split()[0] == b"function"]
    shapes = [line for line in lines[1:sections[0] if sections else None] if line.split()[0] != b"foreign"]
    return b"\n".join([b"shapes 1", *shapes, b""])


def to_soak(case):
    """The module of a check, its shapes, and the words that say its forms."""
    words, texts = case.words, case.texts
    forms = words[words.index("--forms"):][:2] if "--forms" in words else []
    return texts[words[1]], shapes_in(texts[words[2]]), forms


def trace_of(module, times):
    """A trace with each layout's pool and each function that integers start, this often; None where no function is."""
    starts = []
    for name, parameters in re.findall(rb"^\s*define [^@\n]*@(" + NAME + rb")\(([^)\n]*)\)", module, re.M):
        kinds = [one.strip().split(b" ")[0] for one in parameters.split(b",")] if parameters.strip() else []
        if all(re.fullmatch(rb"i\d+", kind) for kind in kinds):
            starts.append(b"start @" + name + b" 0" * len(kinds) + b"\n")
    pools = [b"pool " + name + b" 3\n" for name in re.findall(rb"^%(" + NAME + rb") = type", module, re.M)]
    starts = (starts * times)[:6]
    return b"trace 1\n" + b"".join(pools) + b"".join(starts) + b"steps\nend\n" if starts else None


class Soaks:
    """Soaks and watched runs of modules that are accepted: each starts every function that integers can start, once and twice."""

    def __init__(self, runner):
        self.runner, self.known, self.made, self.begun, self.unread, self.seconds = runner, set(), 0, 0, 0, 0.0
        self.broken = collections.Counter()

    def faults(self, accepted):
        """Which of these modules with their shapes and forms are not as they may be, each with why. A module that was looked at is left out."""
        cases, soaked = [], []
        for number, (module, shapes, forms) in enumerate(accepted):
            key = hashlib.sha256(module + b"\0" + shapes + " ".join(forms).encode()).digest()
            if key in self.known:
                continue
            self.known.add(key)
            given = ["--shapes", "shapes"] if shapes else []
            both = ["module.ll", "trace", *given, "--steps", str(STEPS), *forms]
            lines = [["soak", *both, "--seeds", str(SEEDS)], ["watch", *both, "--turns", str(TURNS)]]
            traces = [trace for trace in (trace_of(module, times) for times in (1, 2)) if trace]
            cases += [Case(words, {"module.ll": module, "trace": trace, "shapes": shapes}) for trace in traces for words in lines]
            soaked += [number] * len(traces) * len(lines)
            self.begun += bool(traces)
        self.made += len(cases)
        found, broken = {}, set()
        for number, case, ended in zip(soaked, cases, self.runner.run_all(cases)):
            command = case.words[0]
            self.unread += ended.status not in (0, 1)
            self.seconds += ended.seconds
            if ended.status == 1:
                broken.add((command, number))
                found.setdefault(number, "yes, and " + ended.stdout.decode(errors="replace").strip())
            if ended.signal or ended.status > 4:
                found.setdefault(number, f"{command}: signal {ended.signal} status {ended.status}")
        self.broken += collections.Counter(command for command, _ in broken)
        return found


@dataclass
class Drawn:
    """A case, and the row and the file from which it was made."""
    told: str
    case: Case


class Search:
    """Draws cases, runs them, and counts how they end."""

    def __init__(self, runner, rows, options):
        self.runner, self.options = runner, options
        self.rows = {command: [row for row in rows if row.words[0] == command] for command in SHARES}
        self.shares = {command: share for command, share in SHARES.items() if self.rows[command]}
        self.tokens = tokens_of(rows)
        self.soaks = Soaks(runner)
        self.counts, self.wrong = collections.Counter(), 0
        self.longest, self.largest, self.accepted = (0.0, ""), (0, ""), 0
        self.seconds = 0.0

    def case(self, number):
        """Draws the case with this number, which depends on the seed and on nothing before it."""
        draw = random.Random(f"{self.options.seed} {number}")
        row = draw.choice(self.rows[draw.choices(list(self.shares), self.shares.values())[0]])
        name = draw.choice(list(row.texts))
        texts = {**row.texts, name: changed(draw, row.texts[name], name, self.tokens)}
        return Drawn(f"case {number}: {row.name} {name}", Case(with_option(draw, row.words), texts))

    def look(self, drawn):
        """Runs these cases, and looks at how each ends."""
        accepted = []
        for one, ended in zip(drawn, self.runner.run_all([one.case for one in drawn])):
            command = one.case.words[0]
            self.counts[command, ended.status if not ended.signal else -ended.signal] += 1
            self.seconds += ended.seconds
            self.longest = max(self.longest, (ended.seconds, one.told))
            self.largest = max(self.largest, (ended.kilobytes, one.told))
            if fault := fault_of(one.case.words, ended):
                self.note(one, fault, ended)
            elif command == "check" and ended.status == 0:
                accepted.append((one, ended))
        self.accepted += len(accepted)
        cases = [one.case for one, _ in accepted]
        for number, fault in self.soaks.faults([to_soak(case) for case in cases]).items():
            self.note(accepted[number][0], fault, accepted[number][1])

    def note(self, one, fault, ended):
        """Keeps a wrong case."""
        self.wrong += 1
        print(f"{one.told}: {fault}", flush=True)
        folder = os.path.join(self.options.keep, f"{self.options.seed}-{self.options.first}-{self.wrong}")
        os.makedirs(folder, exist_ok=True)
        for name, text in one.case.texts.items():
            with open(os.path.join(folder, name), "wb") as out:
                out.write(text)
        with open(os.path.join(folder, "case"), "w") as out:
            out.write(f"{one.told}\n{fault}\ndgc {' '.join(one.case.words)}\n{ended}\n")

    def soak_refused(self):
        """Prints of how many modules that rows refuse a soak breaks, and in how many a watched run names a thread."""
        cases = [Case(row.words, row.texts) for row in self.rows.get("check", []) if len(row.texts) > 1]
        refused = [case for case, ended in zip(cases, self.runner.run_all(cases)) if ended.status == 1]
        soaks = Soaks(self.runner)
        soaks.faults([to_soak(case) for case in refused])
        print(f"of {len(soaks.known)} modules that rows refuse {soaks.begun} have a function that can begin, {soaks.broken['soak']} break in a soak, "
              f"and {soaks.broken['watch']} in a watched run", flush=True)

    def run(self):
        """Runs the cases, until there are enough or the time is over."""
        start, first, last = time.monotonic(), self.options.first, self.options.first + self.options.cases
        number, told = first, first
        while number < last and time.monotonic() - start < 60 * self.options.minutes:
            numbers = range(number, min(number + BATCH, last))
            self.look([self.case(one) for one in numbers])
            number = numbers.stop
            if number - told >= self.options.tell:
                self.tell(number - first, time.monotonic() - start)
                told = number
        self.tell(number - first, time.monotonic() - start)

    def tell(self, made, took):
        """Prints what has come of the cases so far."""
        for command in sorted({command for command, _ in self.counts}):
            by_status = sorted((status, count) for (other, status), count in self.counts.items() if other == command)
            print(f"{command:8} " + "  ".join(f"status {status}: {count:,}" for status, count in by_status))
        print(f"{self.accepted:,} accepted, {self.soaks.made:,} soaks of {len(self.soaks.known):,} modules, {self.soaks.unread:,} not made")
        print(f"longest {self.longest[0]:.3f} s ({self.longest[1]}), largest {self.largest[0] // 1024} MB ({self.largest[1]})")
        print(f"seed {self.options.seed}: {made:,} cases from {self.options.first:,} on in {took:.0f} s, {made / took:.0f} a second, "
              f"{self.seconds:.0f} s of a processor for them, {self.soaks.seconds:.0f} s for soaks, {time.process_time():.0f} s for the script, "
              f"{self.wrong} wrong", flush=True)


def main():
    parser = argparse.ArgumentParser(description=__doc__.split("\n")[0])
    parser.add_argument("dgc")
    parser.add_argument("--seed", default="1")
    parser.add_argument("--cases", type=int, default=1000000)
    parser.add_argument("--first", type=int, default=0, help="the number of the first case")
    parser.add_argument("--minutes", type=float, default=1e9)
    parser.add_argument("--tell", type=int, default=50000, help="after how many cases the counts are printed")
    parser.add_argument("--only", nargs="+", default=[""], help="rows whose command or name has one of these words")
    parser.add_argument("--keep", default=os.path.join(TOP, "out", "hostile"))
    options = parser.parse_args()
    with tempfile.TemporaryDirectory(dir="/dev/shm" if os.path.isdir("/dev/shm") else None) as folder:
        runner = Runner(os.path.abspath(options.dgc), folder, MOST_SECONDS)
        rows = [row for row in read_rows(ROWS) if any(word in f"{row.words[0]} {row.name}" for word in options.only)]
        ends = runner.run_all([Case(row.words, row.texts) for row in rows])
        rows = [row for row, ended in zip(rows, ends) if ended.seconds < SECONDS / 8]
        search = Search(runner, rows, options)
        search.soak_refused()
        search.run()
    sys.exit(1 if search.wrong else 0)


if __name__ == "__main__":
    main()
