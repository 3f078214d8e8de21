#!/usr/bin/env python3
"""Counts which texts of LLVM IR `dgc` reads, and by which form the others are refused first.

    forms.py DGC [--programs FOLDER ..] [--versions V ..] [--texts FOLDER ..] [--draw N] [--seed S] [--all]

- Each C program of the folders (bench/users and bench/programs where none is named) is compiled by clang of each version at three
  levels: -O0; -O0 and then mem2reg, as a front end emits code; and -O1. A program that a version does not compile is told.
- Of the texts (*.ll) in the folders of --texts and in those below, N are drawn (4,000; 0 takes all). LLVM's own tests are such a
  folder: llvm/test of its source.

A text is read where no fault L1 to L10 is printed of it; whether it is accepted is another question. Prints how many are read with
`--forms core` and with `--forms wide`, by level and version, and the first faults with `--forms wide`: the word of an L7, or the
code. With --all each text that is not read is printed with its fault. Ends with 1 where a text is read with `--forms core` and not
with `--forms wide`, or where a run ends in a way in which none may. For use by hand.

To install: `apt-get install clang-14 llvm-14 clang-19 llvm-19`. For LLVM's tests: `apt-get source llvm-toolchain-19`.
"""
import argparse
import collections
import concurrent.futures
import glob
import os
import random
import re
import shutil
import subprocess
import sys
import tempfile

from make import FLAGS, HERE

WORKERS = 4
Level = collections.namedtuple("Level", "name flags passes")
LEVELS = [Level("-O0", "-O0", ""), Level("-O0, mem2reg", "-O0", "mem2reg"), Level("-O1", "-O1", "")]
Text = collections.namedtuple("Text", "group name path")
Answer = collections.namedtuple("Answer", "text core wide")


def run(*words):
    return subprocess.run(words, capture_output=True, text=True, errors="replace", timeout=600)


def compiled(program, version, level, path):
    """Writes the text of a program, and gives what went wrong, or None."""
    made = run(f"clang-{version}", *FLAGS, level.flags, "-o", path, program)
    if made.returncode == 0 and level.passes:
        made = run(f"opt-{version}", "-S", f"-passes={level.passes}", "-o", path, path)
    return made.stderr.strip().split("\n")[0] if made.returncode else None


def texts_of(programs, versions, folder):
    """The texts of programs, by version and level."""
    wanted = [(program, version, level) for version in versions for level in LEVELS for program in programs]

    def text_of(number):
        program, version, level = wanted[number]
        path = os.path.join(folder, f"{number}.ll")
        wrong = compiled(program, version, level, path)
        if wrong:
            print(f"{os.path.basename(program)} by clang-{version} {level.name}: {wrong}")
        return None if wrong else Text(f"clang-{version} {level.name}", os.path.basename(program), path)

    with concurrent.futures.ThreadPoolExecutor(WORKERS) as pool:
        return [text for text in pool.map(text_of, range(len(wanted))) if text]


def drawn(folders, count, seed):
    """Some of the texts in folders and below them."""
    found = sorted((path, os.path.relpath(path, folder)) for folder in folders for path in glob.glob(f"{folder}/**/*.ll", recursive=True))
    if count and count < len(found):
        found = sorted(random.Random(seed).sample(found, count))
    return [Text("texts", name, path) for path, name in found]


def fault(dgc, text, certificate, forms):
    """The fault of a text: its code, place and word; None where it is read."""
    done = run(dgc, "check", text.path, certificate, "--forms", forms)
    if done.returncode not in (0, 1, 2):
        return f"status {done.returncode}"
    found = re.match(r"error (L\d+ .*)", done.stderr)
    return found[1].strip() if found else None


def answers(dgc, texts, certificate):
    def answer(text):
        return Answer(text, *(fault(dgc, text, certificate, forms) for forms in ("core", "wide")))

    with concurrent.futures.ThreadPoolExecutor(WORKERS) as pool:
        return list(pool.map(answer, texts))


def form(said):
    """The form at which a fault is: the word of an L7, where one stands for all of its kind; or the code."""
    code, _, word = (said.split(" ", 2) + ["", ""])[:3]
    if code != "L7":
        return code
    for kind, shown in ((r"@llvm\.", "`@llvm.`, an intrinsic"), ("@", "`@`, another name"), (r"%\d", "`%5`"), ("%", "`%`, another name"), (r"i\d+$", "`iN`")):
        if re.match(kind, word):
            return shown
    return f"`{word}`"


def print_counts(found):
    print("| Texts | In all | Read with `core` | Read with `wide` |\n|---|---:|---:|---:|")
    groups = collections.defaultdict(list)
    for answer in found:
        groups[answer.text.group].append(answer)
    for group, members in groups.items():
        counts = [sum(getattr(answer, forms) is None for answer in members) for forms in ("core", "wide")]
        print(f"| {group} | {len(members)} | {counts[0]} | {counts[1]} |")
    return groups


def print_faults(members, columns):
    """How often each form is the first fault, in each of some groups."""
    counts = {name: collections.Counter(form(answer.wide) for answer in group if answer.wide) for name, group in columns.items()}
    print("\n| First fault with `wide` | " + " | ".join(columns) + " |\n|---|" + "---:|" * len(columns))
    for name, _ in collections.Counter(form(answer.wide) for answer in members if answer.wide).most_common():
        print(f"| {name} | " + " | ".join(str(counts[column][name] or "") for column in columns) + " |")


def report(found, is_told):
    """Prints what was found, and gives what is wrong."""
    groups = print_counts(found)
    programs = {name: group for name, group in groups.items() if name != "texts"}
    for columns in filter(None, (programs, {name: group for name, group in groups.items() if name == "texts"})):
        print_faults([answer for group in columns.values() for answer in group], columns)
    if is_told:
        print("".join(f"    {answer.text.group} {answer.text.name}: {answer.wide}\n" for answer in found if answer.wide), end="")
    return [answer for answer in found if answer.wide and (answer.core is None or "status" in answer.wide + str(answer.core))]


def main():
    options = argparse.ArgumentParser(description=__doc__.split("\n")[0])
    options.add_argument("dgc", type=os.path.abspath)
    options.add_argument("--programs", nargs="*", default=[os.path.join(HERE, "users"), os.path.join(HERE, "programs")])
    options.add_argument("--versions", nargs="+", default=["14", "19"])
    options.add_argument("--texts", nargs="*", default=[])
    options.add_argument("--draw", type=int, default=4000)
    options.add_argument("--seed", type=int, default=1)
    options.add_argument("--all", action="store_true")
    options = options.parse_args()
    versions = [version for version in options.versions if shutil.which(f"clang-{version}") and shutil.which(f"opt-{version}")]
    programs = [path for folder in options.programs for path in sorted(glob.glob(f"{folder}/*.c"))]
    with tempfile.TemporaryDirectory() as folder:
        certificate = os.path.join(folder, "none.cert")
        with open(certificate, "w") as out:
            out.write("cert 1\n")
        texts = texts_of(programs, versions, folder) + drawn(options.texts, options.draw, options.seed)
        wrong = report(answers(options.dgc, texts, certificate), options.all)
    print("\n".join(f"{answer.text.name}: {answer.core} and then {answer.wide}" for answer in wrong) or "none wrong")
    sys.exit(1 if wrong else 0)


if __name__ == "__main__":
    main()
