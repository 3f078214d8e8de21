#!/usr/bin/env python3
"""Says how many programs of bench/left_out are read and accepted as they are, and after examples/pipeline/abstract.py.

    abstracted.py DGC [--versions V ..] [--folder FOLDER] [--all]

Each program goes through clang, mem2reg, jump-threading, [abstract.py], gcroot.py, [shapes.py], `dgc make` and `dgc check`. It prints how
many are read, accepted and refused for each version of clang; with --all a line for each program. FOLDER holds other C programs. Ends
with 1 where abstract.py cannot read what clang writes.

To install: `apt-get install clang-14 llvm-14 clang-22 llvm-22`.
"""
import argparse
import collections
import glob
import os
import shutil
import subprocess
import sys
import tempfile

TOP = os.path.dirname(os.path.dirname(os.path.abspath(__file__)))
PIPELINE = os.path.join(TOP, "examples", "pipeline")


def written(words, path):
    """Runs a command and writes what it prints; gives what it says of a failure, or None."""
    done = subprocess.run(words, capture_output=True, text=True)
    with open(path, "w") as out:
        out.write(done.stdout)
    return None if done.returncode == 0 else (done.stderr or done.stdout).strip().splitlines()[-1]


def answer(dgc, version, base, program, is_abstracted):
    """What is said of a program."""
    clang = [f"clang-{version}", "-O1", "-w", "-Xclang", "-disable-llvm-passes", "-fno-exceptions", "-fno-discard-value-names", "-emit-llvm", "-S", "-o", "-"]
    for words, end in (([*clang, program], ".1.ll"), ([f"opt-{version}", "-S", "-passes=mem2reg,jump-threading,instnamer", base + ".1.ll"], ".2.ll")):
        if wrong := written(words, base + end):
            sys.exit(wrong)
    text = base + ".2.ll"
    if is_abstracted:
        if wrong := written([sys.executable, os.path.join(PIPELINE, "abstract.py"), text], base + ".any.ll"):
            return wrong
        text = base + ".any.ll"
    if wrong := written([sys.executable, os.path.join(PIPELINE, "gcroot.py"), text], base + ".3.ll"):
        return wrong
    shapes = []
    if version != "14":
        shapes = ["--shapes", base + ".shapes"]
        if wrong := written([sys.executable, os.path.join(PIPELINE, "shapes.py"), base + ".3.ll"], base + ".shapes"):
            return wrong
    if wrong := written([dgc, "make", base + ".3.ll", *shapes, "--why"], base + ".cert"):
        return wrong
    done = subprocess.run([dgc, "check", base + ".3.ll", base + ".cert"], capture_output=True, text=True)
    return done.stdout.strip()


def kind(said):
    """Whether a program is accepted, refused by a rule, or not read."""
    return "yes" if said.startswith("yes") else "refused" if said.startswith("no ") else "not read"


def main():
    parser = argparse.ArgumentParser(description=__doc__.split("\n")[0])
    parser.add_argument("dgc", type=os.path.abspath)
    parser.add_argument("--versions", nargs="+", default=["14", "16", "19", "22"])
    parser.add_argument("--folder", default=os.path.join(TOP, "bench", "left_out"))
    parser.add_argument("--all", action="store_true")
    options = parser.parse_args()
    wrong = 0
    print("| clang | Programs | | Read | `yes` | Refused |\n|---|---:|---|---:|---:|---|")
    with tempfile.TemporaryDirectory() as scratch:
        for version in options.versions:
            if not (shutil.which(f"clang-{version}") and shutil.which(f"opt-{version}")):
                continue
            for is_abstracted in (False, True):
                said = {}
                for program in sorted(glob.glob(os.path.join(options.folder, "*.c"))):
                    name = os.path.basename(program)
                    said[name] = answer(options.dgc, version, os.path.join(scratch, name), program, is_abstracted)
                told = collections.Counter(map(kind, said.values()))
                codes = collections.Counter(each.split()[4] for each in said.values() if kind(each) == "refused")
                refused = ", ".join(f"{code} {count}" for code, count in sorted(codes.items()))
                words = "abstracted" if is_abstracted else "as they are"
                print(f"| {version} | {len(said)} | {words} | {told['yes'] + told['refused']} | {told['yes']} | {refused} |")
                if options.all:
                    print("".join(f"    {name}: {each}\n" for name, each in said.items()), end="")
                wrong += sum("abstract.py" in each for each in said.values())
    sys.exit(1 if wrong else 0)


if __name__ == "__main__":
    main()
