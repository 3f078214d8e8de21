#!/usr/bin/env python3
"""Counts for how many functions of C programs the pipeline of examples/pipeline ends with a certificate, by version of clang and level.

    pipeline.py DGC [--versions V ..] [--why] [--keep FOLDER]

Each function of the programs in bench/programs is compiled by clang of each version at several levels. The text goes through
examples/pipeline/gcroot.py, with what the function calls; where it has opaque pointers, through shapes.py; then through `dgc make`
and `dgc check`. The levels are -O0, -O1 without passes and then mem2reg and jump-threading, -O1 and -O2; the last two once more with
byte offsets written as fields (fields.py). Prints the table of docs/FRONT_ENDS.md: how many functions are read, for how many there
is a certificate, and by which code the others are refused. Versions with the same numbers have one line. After it come the
numbers of byte offsets, and how many of them fields.py wrote as fields.

Then it prints why there is none, by the first instruction that is refused with every certificate (refusals.py). A module for which
none is made has to have one, and a module for which one is made must have none. And llc has to make the same code of a text by
fields as of the one with byte offsets. With --why it prints the refusal of each function too. Ends with status 1 where something
is not as it has to be. It takes the versions of clang and opt that are installed. For use by hand.
"""
import argparse
import collections
import concurrent.futures
import functools
import glob
import os
import re
import shutil
import subprocess
import sys
import tempfile

from make import FLAGS, HERE, closure
from refusals import refused_always

sys.path.insert(0, os.path.join(HERE, "..", "examples", "pipeline"))
from fields import rewritten, with_structs
from gcroot import functions_of, is_opaque, module_of
from shapes import shapes_of

WORKERS = 4
VERSIONS = ["14", "16", "19", "22"]
PLAIN = "-O1 -Xclang -disable-llvm-passes"
Answer = collections.namedtuple("Answer", "name code line reason")
Tried = collections.namedtuple("Tried", "version answers offsets wrong")
Level = collections.namedtuple("Level", "name flags passes by_fields")
LEVELS = [
    Level("`-O0`", "-O0", "", False),
    Level("without passes, then `mem2reg,jump-threading`", PLAIN, "mem2reg,jump-threading,", False),
    Level("`-O1`", "-O1", "", False),
    Level("`-O1`, then `fields.py`", "-O1", "", True),
    Level("`-O2`", "-O2", "", False),
    Level("`-O2`, then `fields.py`", "-O2", "", True),
]


def run(*words, text=None):
    return subprocess.run(words, input=text, capture_output=True, text=True, timeout=600)


def succeeded(*words, text=None):
    """What a command prints that has to succeed."""
    answer = run(*words, text=text)
    if answer.returncode:
        sys.exit(f"{' '.join(words)}: {answer.stderr.strip()}")
    return answer.stdout


def structs_of(text):
    return dict(re.findall(r"^(%\S+) = type (\{.*\})$", text, re.M))


class Pipeline:
    """Takes functions of one version of clang through the steps."""

    def __init__(self, dgc, version, folder):
        self.dgc, self.version, self.folder = dgc, version, folder
        self.offsets, self.wrong = collections.Counter(), []

    def compiled(self, program, level):
        """What clang makes of a program at a level, with names and structs; and the same by fields."""
        text = self.clang(program, level.flags)
        text = succeeded(f"opt-{self.version}", "-S", f"-passes={level.passes}instnamer", text=text)
        if not is_opaque(text):
            return text, text
        plain = self.clang(program, PLAIN)
        by_fields, told = rewritten(plain, text)
        if level.by_fields:
            self.offsets[level.name, "all"] += told["byte offsets", True] + told["byte offsets", False]
            self.offsets[level.name, "by fields"] += told["byte offsets", True]
            if self.code_of(text) != self.code_of(by_fields):
                self.wrong.append(f"{os.path.basename(program)} {self.version} {level.flags}: other code by fields")
        return by_fields if level.by_fields else with_structs(text, structs_of(plain)), by_fields

    def code_of(self, text):
        """The machine code of a text, with addresses folded so that their written form does not count."""
        text = re.sub(r"getelementptr (inbounds |nuw |nusw )*", "getelementptr ", text)
        folded = succeeded(f"opt-{self.version}", "-S", "-passes=early-cse,separate-const-offset-from-gep,gvn", text=text)
        return succeeded(f"llc-{self.version}", "-O2", "-disable-lsr", "-o", "-", text=folded)

    @functools.cache
    def clang(self, program, flags):
        return succeeded(f"clang-{self.version}", *FLAGS, *flags.split(), "-o", "-", program)

    def path(self, name, text):
        path = os.path.join(self.folder, name)
        with open(path, "w") as out:
            out.write(text)
        return path

    def answer(self, name, module, by_fields):
        """`made`, or the code of the refusal or of the fault; and the line that says so. The shapes are those of the module by fields."""
        path, words = self.path(name + ".ll", module), []
        if is_opaque(module):
            try:
                words = ["--shapes", self.path(name + ".shapes", "\n".join([*shapes_of(by_fields), ""]))]
            except SystemExit as refused:
                return "no shapes", str(refused)
        made = run(self.dgc, "make", path, *words, "--why")
        if made.returncode == 0:
            checked = run(self.dgc, "check", path, self.path(name + ".cert", made.stdout))
            if checked.returncode:
                self.wrong.append(f"{name}: made, and then {checked.stdout.strip()}{checked.stderr.strip()}")
            return "made", ""
        line = (made.stderr.strip() or made.stdout.strip()).split("\n")[-1]
        return next((word for word in line.split() if re.match(r"[A-Z]\d+$", word)), "no answer"), line

    def answers(self, level, number):
        """What comes of each function of a level, as Answers."""
        return [answer for program in sorted(glob.glob(f"{HERE}/programs/*.c")) for answer in self.of_program(program, level, number)]

    def of_program(self, program, level, number):
        """What comes of each function of a program."""
        text, by_fields = self.compiled(program, level)
        functions = functions_of(text)

        def of_function(function):
            name, wanted = f"{function}.{self.version}.{number}", closure(functions, function)
            module = module_of(text, wanted)
            code, line = self.answer(name, module, module if by_fields is text else module_of(by_fields, wanted))
            return Answer(name, code, line, self.reason(name, module, code))

        with concurrent.futures.ThreadPoolExecutor(WORKERS) as pool:
            return list(pool.map(of_function, functions))

    def reason(self, name, module, code):
        """Why a module has no certificate: the rule and the reason of the first instruction that is refused with every one."""
        if code != "made" and code[0] != "K" and code != "no answer":
            return None
        always = next(refused_always(module, functions_of(module)), None)
        if code == "made" and always:
            self.wrong.append(f"{name}: made, though refused with every certificate: {always}")
        if code != "made" and not always:
            self.wrong.append(f"{name}: none made, and no instruction is refused with every certificate")
        return always and f"{always[4]} | {always[3]}"


def counted(codes):
    """What a line of the table says of these answers."""
    told = collections.Counter(codes)
    unread = {code: count for code, count in told.items() if code[0] in "LYn"}
    refused = {code: count for code, count in told.items() if code[0] == "K"}

    def listed(counts):
        return ", ".join(f"{code} {count}" for code, count in sorted(counts.items(), key=lambda pair: (-pair[1], pair[0])))

    return f"{len(codes) - sum(unread.values())} | {told['made']} | {listed(refused)} | {listed(unread)}"


def tried(dgc, folder, version):
    """One version at each level: the answers by level, the counts of byte offsets, and what is wrong."""
    pipeline = Pipeline(dgc, version, folder)
    answers = {number: pipeline.answers(level, number) for number, level in enumerate(LEVELS) if version != "14" or not level.by_fields}
    return Tried(version, answers, pipeline.offsets, pipeline.wrong)


def print_table(found):
    """A line for each level, and for the versions with the same numbers."""
    print("| Text | clang | Read | With a certificate | Refused | Not read |\n|---|---|---:|---:|---|---|")
    for number, level in enumerate(LEVELS):
        lines = {}
        for of_version in found:
            if number in of_version.answers:
                lines.setdefault(counted([answer.code for answer in of_version.answers[number]]), []).append(of_version.version)
        for line, versions in lines.items():
            print(f"| {level.name} | {', '.join(versions)} | {line} |")


def reasons_of(found):
    """How often each reason came, by version and level."""
    reasons = collections.defaultdict(collections.Counter)
    for of_version in found:
        for number, answers in of_version.answers.items():
            for answer in answers:
                if answer.reason and answer.code != "made":
                    reasons[answer.reason][of_version.version, number] += 1
    return reasons


def print_offsets(found):
    print()
    for of_version in found:
        for level in LEVELS:
            if count := of_version.offsets[level.name, "all"]:
                print(f"clang-{of_version.version} {level.flags}: {count} byte offsets, {of_version.offsets[level.name, 'by fields']} by fields")


def print_refusals(found):
    for of_version in found:
        for number, answers in of_version.answers.items():
            for answer in answers:
                if answer.code != "made":
                    print(f"    {answer.name} {LEVELS[number].name}: {answer.line}; {answer.reason}")


def print_reasons(reasons, versions):
    """A line for each reason, with the counts of each level at these versions; those of equal counts have one column."""
    columns = {}
    for number in range(len(LEVELS)):
        for version in versions:
            counts = tuple(counts[version, number] for counts in reasons.values())
            if any(counts):
                columns.setdefault((number, counts), []).append(version)
    columns = {f"{LEVELS[number].name}, {', '.join(group)}": (group[0], number) for (number, _), group in columns.items()}
    print("\n| Reason | Rule | " + " | ".join(columns) + " |")
    print("|---|---|" + "---:|" * len(columns))
    for reason, counts in sorted(reasons.items(), key=lambda row: -sum(row[1].values())):
        print(f"| {reason} | " + " | ".join(str(counts[column] or "") for column in columns.values()) + " |")


def main():
    options = argparse.ArgumentParser(description=__doc__.split("\n")[0])
    options.add_argument("dgc", type=os.path.abspath)
    options.add_argument("--versions", nargs="+", default=VERSIONS)
    options.add_argument("--why", action="store_true")
    options.add_argument("--keep")
    options = options.parse_args()
    versions = [version for version in options.versions if shutil.which(f"clang-{version}") and shutil.which(f"opt-{version}")]
    for version in options.versions:
        if version not in versions:
            print(f"clang-{version} or opt-{version} is missing")
    with tempfile.TemporaryDirectory() as scratch, concurrent.futures.ProcessPoolExecutor(len(versions)) as pool:
        folder = options.keep or scratch
        os.makedirs(folder, exist_ok=True)
        found = list(pool.map(functools.partial(tried, options.dgc, folder), versions))
    print_table(found)
    print_offsets(found)
    print_reasons(reasons_of(found), versions[:1] + versions[1:][-1:])
    if options.why:
        print_refusals(found)
    wrong = [line for of_version in found for line in of_version.wrong]
    print("\n".join(wrong) or "none wrong")
    sys.exit(1 if wrong else 0)


if __name__ == "__main__":
    main()
