#!/usr/bin/env python3
"""Asks `dgc make` of each program that is read, soaks what is accepted, and leaves roots and barriers out of some of it.

    made.py DGC [--programs FOLDER ..] [--versions V ..] [--seeds N] [--steps S] [--left-out N] [--workers N] [--keep FOLDER] [--all]

Each C program of the folders (bench/users, bench/programs, bench/left_out and bench/later where none is named) is compiled by clang of
each version at three levels: -O0; -O0 and then mem2reg and jump-threading; and -O1, with byte offsets written as fields
(examples/pipeline/fields.py). Of a text that `dgc check --forms wide` reads, with no fault L1 to L10,
- examples/pipeline/gcroot.py makes gcroot code, shapes.py its shapes, and `dgc make --forms wide` is asked for a certificate. Where
  gcroot.py refuses the text, `make` is asked of the text as it is;
- the same is done by `--forms core` after examples/pipeline/abstract.py. Where that is made and this is not, something is wrong.

Prints for each version and level how many are read, for how many a certificate is made by each of the two ways, by which rules the
others are refused, and how often for which reason; with --all each refusal. Then `dgc soak --drawn-values` tries N seeds in all, shared among the texts with a
certificate (soaks.py). In the end a barrier or a root is left out of some of them, and `make` has to say no (omissions.py). Ends with
1 where something is not as it has to be. It takes the versions of clang and opt that are installed. For use by hand.

To install: `apt-get install clang-14 llvm-14 clang-19 llvm-19`, and so on.
"""
import argparse
import collections
import concurrent.futures
import functools
import glob
import os
import re
import shutil
import subprocess
import sys
import tempfile

import omissions
import soaks
from make import FLAGS, HERE

PIPELINE = os.path.join(HERE, "..", "examples", "pipeline")
sys.path.insert(0, PIPELINE)
import gcroot
import ir
from abstract import Abstraction
from fields import rewritten
from shapes import shapes_of

FOLDERS = ["users", "programs", "left_out", "later"]
PLAIN = "-O1 -Xclang -disable-llvm-passes"
Level = collections.namedtuple("Level", "name flags passes")
LEVELS = [Level("-O0", "-O0", ""), Level("-O0, mem2reg", "-O0", "mem2reg,jump-threading,"), Level("-O1", "-O1", "")]
# What came of a text: the fault of reading, or None; and the answers of `make` by itself and after abstract.py.
Made = collections.namedtuple("Made", "version level program base fault answer by_script")
# `yes`, or a rule, or why there is no module; the line that says so; and the reason, without names.
Answer = collections.namedtuple("Answer", "code line reason", defaults=[""])
YES = Answer("yes", "")


def run(*words, text=None):
    return subprocess.run(words, input=text, capture_output=True, text=True, errors="replace", timeout=600)


def succeeded(*words, text=None):
    answer = run(*words, text=text)
    if answer.returncode:
        sys.exit(f"{' '.join(words)}: {answer.stderr.strip()}")
    return answer.stdout


def written(path, text):
    with open(path, "w") as out:
        out.write(text)
    return path


def compiled(version, program, level):
    """What clang makes of a program, with names."""
    def clang(flags):
        return succeeded(f"clang-{version}", *FLAGS, *flags.split(), "-o", "-", program)

    text = succeeded(f"opt-{version}", "-S", f"-passes={level.passes}instnamer", text=clang(level.flags))
    if level.flags == "-O0" or not gcroot.is_opaque(text):
        return text
    try:
        return rewritten(clang(PLAIN), text)[0]
    except SystemExit:
        return text


def asked(dgc, base, module, forms):
    """What `make` says of a module. The module, its shapes and its certificate stay at the base's name."""
    path, words = written(base + ".ll", module), ["--forms", forms]
    if gcroot.is_opaque(module):
        try:
            words += ["--shapes", written(base + ".shapes", "\n".join([*shapes_of(module), ""]))]
        except SystemExit as refused:
            return Answer("no shapes", str(refused))
    made = run(dgc, "make", path, *words, "--why", "--explain", "always")
    if made.returncode == 0:
        checked = run(dgc, "check", path, written(base + ".cert", made.stdout), "--forms", forms)
        return YES if checked.stdout.startswith("yes ") else Answer("wrong", f"made, and then {checked.stdout}{checked.stderr}")
    return refusal(made.stderr)


def refusal(said):
    """A refusal, as it is explained."""
    line = next((line for line in said.split("\n") if re.match(r"no @|error ", line)), "")
    told = re.search(r":\d+:\d+: ([A-Z]\d+): (.*)", said)
    code = told[1] if told else next((word for word in line.split() if re.match(r"[A-Z]\d+$", word)), "no answer")
    return Answer(code, line, re.sub(r"[%@][-\w.$]+", "X", told[2]) if told else "")


def answer(dgc, base, text, forms):
    """What `make` says of a text with roots and barriers; and of the text as it is, where gcroot.py puts in none."""
    text = gcroot.without_copies(text)
    refused = gcroot.fault(text)
    if not refused:
        return asked(dgc, base, gcroot.module_of(text), forms)
    said = asked(dgc, base, text, forms)
    return said._replace(code=f"{said.code} without roots", line=f"{said.line} (gcroot.py: {refused})")


def by_script(dgc, base, text):
    """What `make` says after abstract.py. gcroot.py takes what clang writes, and may fail at what abstract.py writes."""
    try:
        return answer(dgc, base + ".script", Abstraction(ir.read(text)).text(), "core")
    except Exception as error:
        return Answer("no text", repr(error))


def fault_of(dgc, base, text):
    """The fault of a text that is not read: its code, place and word."""
    done = run(dgc, "check", written(base + ".read.ll", text), written(base + ".none", "cert 1\n"), "--forms", "wide")
    found = re.match(r"error (L\d+ .*)", done.stderr)
    return found[1].strip() if found else None


def made(dgc, folder, wanted):
    """What comes of a program by a version of clang at a level."""
    version, level, program = wanted
    group, name = program.split(os.sep)[-2:]
    base = os.path.join(folder, f"{version}.{LEVELS.index(level)}.{group}.{name[:-2]}")
    text = compiled(version, program, level)
    fault = fault_of(dgc, base, text)
    if fault:
        return Made(version, level, f"{group}/{name}", base, fault, None, None)
    return Made(version, level, f"{group}/{name}", base, None, answer(dgc, base, text, "wide"), by_script(dgc, base, text))


def counted(codes):
    counts = collections.Counter(codes)
    return ", ".join(f"{code} {count}" for code, count in sorted(counts.items(), key=lambda pair: (-pair[1], pair[0])))


def print_reading(found):
    """How many programs of each folder are read."""
    groups = collections.defaultdict(lambda: collections.defaultdict(list))
    for each in found:
        groups[f"clang-{each.version} {each.level.name}"][each.program.split("/")[0]].append(each.fault is None)
    names = list(dict.fromkeys(each.program.split("/")[0] for each in found))
    print("| Read | " + " | ".join([*names, "all"]) + " |\n|---|" + "---:|" * (len(names) + 1))
    for group, members in groups.items():
        columns = [members[name] for name in names] + [[is_read for one in members.values() for is_read in one]]
        print(f"| {group} | " + " | ".join(f"{sum(column)} of {len(column)}" for column in columns) + " |")


def print_answers(found):
    """How many of the texts that are read get a certificate, and by which rules the others are refused."""
    print("\n| Texts | Read | `yes` | `yes` after `abstract.py` | Refused |\n|---|---:|---:|---:|---|")
    groups = collections.defaultdict(list)
    for each in found:
        if each.fault is None:
            groups[f"clang-{each.version} {each.level.name}"].append(each)
    for group, members in groups.items():
        yes, script = (sum(answer.code == "yes" for answer in column) for column in zip(*((each.answer, each.by_script) for each in members)))
        print(f"| {group} | {len(members)} | {yes} | {script} | {counted(each.answer.code for each in members if each.answer != YES)} |")


def print_reasons(found):
    """How often each rule refuses for each reason, at each level."""
    reasons = collections.defaultdict(collections.Counter)
    for each in found:
        if each.fault is None and each.answer != YES:
            reasons[each.answer.code, each.answer.reason][each.level.name] += 1
    print("\n| Rule | Reason | " + " | ".join(level.name for level in LEVELS) + " |\n|---|---|" + "---:|" * len(LEVELS))
    for (code, reason), counts in sorted(reasons.items(), key=lambda row: -sum(row[1].values())):
        print(f"| {code} | {reason} | " + " | ".join(str(counts[level.name] or "") for level in LEVELS) + " |")


def print_refusals(found):
    for each in found:
        if each.answer != YES:
            script = each.by_script.code if each.by_script else ""
            print(f"    clang-{each.version} {each.level.name} {each.program}: {each.fault or each.answer.line}" + (f"; after abstract.py: {script}" if script else ""))


def wrong_of(found):
    """What is not as it has to be."""
    for each in found:
        if each.fault is None and (each.answer.code == "wrong" or each.by_script == YES and each.answer != YES):
            yield f"clang-{each.version} {each.level.name} {each.program}: {each.answer.line}; after abstract.py: {each.by_script.code}"


def main():
    options = argparse.ArgumentParser(description=__doc__.split("\n")[0])
    options.add_argument("dgc", type=os.path.abspath)
    options.add_argument("--programs", nargs="+", default=[os.path.join(HERE, folder) for folder in FOLDERS])
    options.add_argument("--versions", nargs="+", default=["14", "16", "19", "22"])
    options.add_argument("--seeds", type=int, default=100000)
    options.add_argument("--steps", type=int, default=4000)
    options.add_argument("--left-out", type=int, default=10)
    options.add_argument("--workers", type=int, default=4)
    options.add_argument("--keep")
    options.add_argument("--all", action="store_true")
    options = options.parse_args()
    versions = [version for version in options.versions if shutil.which(f"clang-{version}") and shutil.which(f"opt-{version}")]
    programs = [path for folder in options.programs for path in sorted(glob.glob(f"{os.path.abspath(folder)}/*.c"))]
    wanted = [(version, level, program) for version in versions for level in LEVELS for program in programs]
    with tempfile.TemporaryDirectory() as scratch, concurrent.futures.ProcessPoolExecutor(options.workers) as pool:
        folder = options.keep or scratch
        os.makedirs(folder, exist_ok=True)
        found = list(pool.map(functools.partial(made, options.dgc, folder), wanted))
        print_reading(found)
        print_answers(found)
        print_reasons(found)
        if options.all:
            print_refusals(found)
        accepted = [each for each in found if each.answer == YES]
        wrong = list(wrong_of(found)) + soaks.tried(options, accepted) + omissions.tried(options, accepted)
    print("\n".join(wrong) or "none wrong")
    sys.exit(1 if wrong else 0)


if __name__ == "__main__":
    main()
