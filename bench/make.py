#!/usr/bin/env python3
"""Counts for how many functions `dgc make` makes a certificate.

    make.py DGC [--clang PROGRAM] [--opt PROGRAM] [--level=-O0:PASSES ..] [--keep FOLDER] [--all]

- Each function of the C programs in bench/programs is compiled at several levels, and made into gcroot code with what it calls,
  by examples/pipeline/gcroot.py. Prints for each level how many modules are read, for how many of them a certificate is made,
  and by which rule the others are refused. Then it prints why they are: refusals.py finds the instructions that are refused
  with every certificate. A module for which none is made has to have one, and a module for which one is made must have none.
  With --all it prints the refusal of each module, and such an instruction. With --level it takes these flags of clang and passes
  of opt.
- The module of each worked example that `check` accepts (crates/dgc_tests/data), and modules of generate.py: a certificate
  has to be made for each.
Each certificate that is made has to be accepted by `dgc check`. Then module and certificate are migrated to opaque pointers
(`dgc migrate`). Where `check` accepts them, a certificate has to be made of the migrated module too. Ends with status 1 where
something is not as it has to be.
clang has to write typed pointers, as up to version 14. For use by hand.
"""
import argparse
import collections
import glob
import os
import subprocess
import sys
import tempfile

from refusals import refused_always

HERE = os.path.dirname(os.path.abspath(__file__))
sys.path.insert(0, os.path.join(HERE, "..", "examples", "pipeline"))
from gcroot import functions_of, module_of

ROWS = os.path.join(HERE, "..", "crates", "dgc_tests", "data", "rows")
FLAGS = ["-S", "-emit-llvm", "-w", "-fno-builtin", "-fno-vectorize", "-fno-slp-vectorize", "-fno-unroll-loops", "-fno-exceptions",
         "-fno-discard-value-names", "-Xclang", "-disable-O0-optnone"]
LEVELS = ["-O0:", "-O0:mem2reg,jump-threading", "-O1:", "-O2:"]


def run(*words, text=None):
    return subprocess.run(words, input=text, capture_output=True, text=True, timeout=600)


class Maker:
    """Makes certificates, and keeps what was found."""

    def __init__(self, dgc, folder):
        self.dgc, self.folder, self.wrong = dgc, folder, []
        self.migrated = 0

    def path(self, name, text):
        """Writes a text, and returns where."""
        path = os.path.join(self.folder, name)
        with open(path, "w") as out:
            out.write(text)
        return path

    def made(self, name, module, shapes=""):
        """`made`, or the rule of the refusal, or the fault of the text; and the line that says so."""
        path = self.path(name + ".ll", module)
        words = ["--shapes", self.path(name + ".shapes", shapes)] if shapes else []
        answer = run(self.dgc, "make", path, *words, "--why")
        if answer.returncode == 0:
            cert = self.path(name + ".cert", answer.stdout)
            checked = run(self.dgc, "check", path, cert)
            if checked.returncode != 0:
                self.wrong.append(f"{name}: made, and then {checked.stdout.strip()}{checked.stderr.strip()}")
            elif not shapes:
                self.make_migrated(name, path, cert)
            return "made", ""
        line = (answer.stderr.strip() or answer.stdout.strip()).split("\n")[-1]
        words = line.split()
        if answer.returncode == 1:
            return next((word for word in words if word[0] == "K" and word[1:].isdigit()), "no answer"), line
        if answer.returncode != 2:
            self.wrong.append(f"{name}: status {answer.returncode} {line}")
        return words[1] if len(words) > 1 else "error", line

    def make_migrated(self, name, path, cert):
        """Makes a certificate of a module once more as it is migrated to opaque pointers, if `check` accepts it with the migrated one."""
        module, migrated = run(self.dgc, "migrate", path), run(self.dgc, "migrate", path, cert)
        if module.returncode or migrated.returncode:
            self.wrong.append(f"{name}: not migrated: {module.stderr.strip()} {migrated.stderr.strip()}")
            return
        shapes = shapes_of(migrated.stdout)
        opaque = self.path(name + ".opaque.ll", module.stdout), self.path(name + ".opaque.cert", migrated.stdout)
        if shapes and run(self.dgc, "check", *opaque).returncode == 0:
            answer, line = self.made(name + ".opaque", module.stdout, shapes)
            self.migrated += 1
            if answer != "made":
                self.wrong.append(f"{name}: made, and not when it is migrated: {line}")


def shapes_of(cert):
    """The shapes of a certificate, as a file of their own; empty where it has none."""
    lines = cert.split("\n")
    shapes = [line for line in lines if line.split(" ")[0] in ("layout", "global", "root")]
    return "\n".join(["shapes 1", *shapes, ""]) if lines[0].startswith("cert 2") else ""


def compiled(options, path, level, passes):
    text = run(options.clang, *FLAGS, *level.split(), "-o", "-", path).stdout
    return run(options.opt, "-S", f"-passes={passes}", text=text).stdout


def closure(functions, name):
    """A function and those that it calls, in the order of the text."""
    wanted, todo = set(), [name]
    while todo:
        it = todo.pop()
        if it not in wanted:
            wanted.add(it)
            todo += [called for called in functions[it].calls() if called in functions]
    return [it for it in functions if it in wanted]


def modules(text):
    """For each function of what clang prints, the module that has it and what it calls, as gcroot code."""
    functions = functions_of(text)
    for name in functions:
        yield name, module_of(text, closure(functions, name))


def why_none(maker, name, module, answer):
    """Why a module has no certificate: the rule and the reason of the first instruction that is refused with every one."""
    if answer != "made" and answer[0] != "K":
        return None
    always = next(refused_always(module, functions_of(module)), None)
    if answer == "made" and always:
        maker.wrong.append(f"{name}: made, though refused with every certificate: {always}")
    if answer != "made" and not always:
        maker.wrong.append(f"{name}: none made, and no instruction is refused with every certificate")
    return always


def tried(options, maker, level):
    """What came of each module of a level, and why there is no certificate."""
    flag, passes = level.split(":", 1)
    passes = ",".join(passes.split(",") * bool(passes) + ["instnamer"])
    for path in sorted(glob.glob(f"{HERE}/programs/*.c")):
        for function, module in modules(compiled(options, path, flag, passes)):
            name = f"{function}{flag}.{options.level.index(level)}"
            answer, line = maker.made(name, module)
            always = why_none(maker, name, module, answer)
            if options.all and answer != "made":
                print(f"  {function}: {line}" + (f"; with every certificate: @{always[0]} %{always[1]} {always[2]} {always[3]} {always[4]}" if always else ""))
            yield answer, always and f"{always[3]} {always[4]}"


def corpus(options, maker):
    """A line for each level, and then one for each reason."""
    print(f"{'level':40} functions  read  made  others")
    reasons = collections.defaultdict(lambda: [0] * len(options.level))
    for at, level in enumerate(options.level):
        told = collections.Counter()
        for answer, reason in tried(options, maker, level):
            told[answer] += 1
            if reason:
                reasons[reason][at] += 1
        count, unread = sum(told.values()), sum(number for answer, number in told.items() if answer[0] in "LYe")
        others = ", ".join(f"{answer} {number}" for answer, number in sorted(told.items()) if answer != "made")
        print(f"{level.replace(':', ' '):40} {count:9} {count - unread:5} {told['made']:5}  {others}", flush=True)
    print("\nrefused with every certificate, at the levels in this order")
    for reason, counts in sorted(reasons.items(), key=lambda row: -sum(row[1])):
        print(f"{reason:60}" + "".join(f"{number:5}" for number in counts))


def accepted_rows():
    """The modules of the worked examples that `check` accepts, with their shapes."""
    for row in sorted(os.listdir(ROWS)):
        with open(f"{ROWS}/{row}/args") as args, open(f"{ROWS}/{row}/status") as status:
            words = args.read().split("\n")
            if words[0] == "check" and status.read().strip() == "0" and os.path.exists(f"{ROWS}/{row}/{words[1]}"):
                with open(f"{ROWS}/{row}/{words[1]}") as module, open(f"{ROWS}/{row}/{words[2]}") as cert:
                    yield row, module.read(), shapes_of(cert.read())


def references(maker):
    """Modules that have a certificate: one has to be made for each."""
    count = 0
    for row, module, shapes in accepted_rows():
        answer, line = maker.made(f"row_{row}", module, shapes)
        count += 1
        if answer != "made":
            maker.wrong.append(f"row {row}: {line}")
    for seed in range(10):
        base = os.path.join(maker.folder, f"generated{seed}")
        run(sys.executable, f"{HERE}/generate.py", "--functions", "200", "--seed", str(seed), base)
        with open(base + ".ll") as module:
            answer, line = maker.made(f"made{seed}", module.read())
        count += 1
        if answer != "made":
            maker.wrong.append(f"generated {seed}: {line}")
    print(f"{count} modules that have a certificate")
    print(f"{maker.migrated} modules that were migrated, and accepted")


def main():
    options = argparse.ArgumentParser(description=__doc__.split("\n")[0])
    options.add_argument("dgc")
    options.add_argument("--clang", default="clang")
    options.add_argument("--opt", default="opt")
    options.add_argument("--level", action="append")
    options.add_argument("--keep")
    options.add_argument("--all", action="store_true")
    options = options.parse_args()
    options.level = options.level or LEVELS
    with tempfile.TemporaryDirectory() as folder:
        if options.keep:
            os.makedirs(options.keep, exist_ok=True)
        maker = Maker(options.dgc, options.keep or folder)
        corpus(options, maker)
        references(maker)
    print("\n".join(maker.wrong) or "none wrong")
    sys.exit(1 if maker.wrong else 0)


if __name__ == "__main__":
    main()
