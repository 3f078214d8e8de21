#!/usr/bin/env python3
"""Makes mistakes in right programs, and looks what `dgc fix` makes of them.

    fixes.py DGC [--traces N] [--steps S]

Takes the eight programs of bench/fixes, with the certificates that `dgc make` prints of them, and makes each kind of
mistake in each of them (`KINDS`). Prints a table: of how many modules `dgc fix` comes to yes, to another refusal, or
finds no safe fix. Ends with 1 where

- `dgc check` says of the two texts that were written something else than `dgc fix` did, or ends with another status,
- an input was changed, or a text is written that was not fixed and is not the input,
- a module with a yes is another program than the right one: N traces of S drawn steps of two threads are replayed
  with both, and the printed lines and the records have to be the same,
- a kind that safe fixes mend does not end with yes.

docs/FIXES.md has the table.
"""
import argparse
import glob
import os
import random
import re
import subprocess
import sys
import tempfile

FOLDER = os.path.join(os.path.dirname(os.path.abspath(__file__)), "fixes")
BARRIER = re.compile(r"call void @llvm\.gcwrite\(ptr (\S+), ptr (\S+), ptr (\S+)\)")
LABEL = re.compile(r"^([a-z]+):$", re.M)


def without(text, pattern):
    """The text without the first line that has this."""
    return re.sub(rf"^.*{pattern}.*\n", "", text, count=1, flags=re.M)


def renamed(module, kind):
    """The module with one name in place of the uses of another one; its comment of this kind names both."""
    used, other = re.search(rf"^; {kind}: (\S+) (\S+)$", module, re.M).groups()
    return re.sub(rf"(?<![\w.%]){re.escape(used)}(?![\w.])(?! =)", other, module.partition("\n%")[2])


def with_head(module, changed):
    return module.partition("\n%")[0] + "\n%" + changed


def no_root(module, cert):
    slot = re.search(r"@llvm\.gcroot\(ptr (%\w+), ptr null\)\n", module)[1]
    return without(module, rf"call void @llvm\.gcroot\(ptr {slot},"), without(cert, rf"^root @\w+ {slot} ")


def plain_store(module, cert):
    return BARRIER.sub(r"store ptr \1, ptr \3", module, count=1), cert


def all_plain_stores(module, cert):
    return BARRIER.sub(r"store ptr \1, ptr \3", module), cert


def plain_store_undeclared(module, cert):
    return without(all_plain_stores(module, cert)[0], r"declare void @llvm\.gcwrite"), cert


def other_object(module, cert):
    """The last barrier of a value names that as the object of a place that is in no cell of it."""
    places = [found for found in BARRIER.finditer(module) if found[1] not in ("null", found[2])]
    found = places[-1]
    start, end = found.span()
    return module[:start] + f"call void @llvm.gcwrite(ptr {found[1]}, ptr {found[1]}, ptr {found[3]})" + module[end:], cert


def no_null_test(module, cert):
    return re.sub(r"br i1 %none, label %\w+, label %(\w+)", r"br label %\1", module, count=1), cert


def other_number(module, cert):
    return re.sub(r"@dg_alloc\(i32 \d+\)", "@dg_alloc(i32 7)", module, count=1), cert


def other_mark(module, cert):
    return module, re.sub(r"^(function @\w+) may$", r"\1 none", cert, count=1, flags=re.M)


def root_in_a_loop(module, cert):
    line = re.search(r"^.*call void @llvm\.gcroot\(ptr %s,.*\n", module, re.M)[0]
    return module.replace(line, "").replace("again:\n", "again:\n" + line), cert


def kept_over_a_safepoint(module, cert):
    return with_head(module, renamed(module, "kept")), cert


def not_dominated(module, cert):
    return with_head(module, renamed(module, "undominated")), cert


def undeclared(module, cert):
    return without(module, r"declare void @llvm\.gcwrite"), cert


def claim_missing(module, cert):
    return module, without(cert, r"^%\S+ ref ")


def claimed_fresh(module, cert):
    claims = [found for found in re.finditer(r"^%\S+ ref \S+( nonnull)?$", cert, re.M)]
    if not claims:
        return module, re.sub(r"^(block %\w+)\n", r"\1\nslot %s nonnull\n", cert, count=1, flags=re.M)
    end = claims[0].end()
    return module, cert[:end] + " fresh" + cert[end:]


def block_missing(module, cert):
    return module, without(cert, r"^block %again$")


# the kinds of mistakes, and whether each is to end with yes
KINDS = [
    ("no gcroot", no_root, False),
    ("a plain store", plain_store, True),
    ("another object", other_object, False),
    ("no null test", no_null_test, False),
    ("a number without a layout", other_number, False),
    ("`none` for `may`", other_mark, True),
    ("gcroot in a loop", root_in_a_loop, False),
    ("a register kept over a safepoint", kept_over_a_safepoint, False),
    ("a register that does not dominate", not_dominated, False),
    ("all stores plain", all_plain_stores, True),
    ("all stores plain, and no declare", plain_store_undeclared, True),
    ("a missing declare", undeclared, True),
    ("a claim that is missing", claim_missing, True),
    ("a claim that does not hold", claimed_fresh, True),
    ("a block that is not listed", block_missing, True),
]


class Wrong(Exception):
    """What is not as it has to be."""


def run(*words):
    return subprocess.run(words, capture_output=True, text=True)


def read(path):
    with open(path, encoding="utf-8") as file:
        return file.read()


def write(path, text):
    with open(path, "w", encoding="utf-8") as file:
        file.write(text)


def trace_of(draw, module, steps):
    """A trace of two threads, the collector and drawn steps."""
    types = re.findall(r"^%(\w+) = type", module, re.M)
    lines = ["trace 1", *(f"pool {name} 3" for name in types), "start @run", "start @run", "steps"]
    left = steps
    while left > 0:
        count = min(left, draw.randrange(1, 12))
        lines.append(f"{draw.choice(['t 0', 't 1', 'c'])} {count}")
        left -= count
    return "\n".join([*lines, "end", ""])


def replayed(options, folder, module, trace, shapes):
    """What a replay prints, and the record of its run."""
    record = os.path.join(folder, "run.record")
    said = run(options.dgc, "replay", module, trace, "--shapes", shapes, "--record", record)
    if said.returncode not in (0, 1):
        raise Wrong(f"replay: {said.stderr}")
    with open(record, "rb") as file:
        return said.stdout, file.read()


def compare_runs(options, folder, right, fixed, shapes):
    """Both modules make the same run of each trace."""
    draw = random.Random(1)
    for _ in range(options.traces):
        trace = os.path.join(folder, "run.trace")
        write(trace, trace_of(draw, read(right), options.steps))
        if replayed(options, folder, right, trace, shapes) != replayed(options, folder, fixed, trace, shapes):
            raise Wrong("the runs differ")


def answer_of(options, folder, module, cert):
    """The lines of fixes, the verdict, and the paths of what is written."""
    out = os.path.join(folder, "fixed.ll"), os.path.join(folder, "fixed.cert")
    before = read(module), read(cert)
    said = run(options.dgc, "fix", module, cert, "--module", out[0], "--cert", out[1])
    lines = (said.stdout + said.stderr).splitlines()
    fixes = [line for line in lines if line.startswith("fixed ")]
    verdict = lines[len(fixes):]
    if (read(module), read(cert)) != before:
        raise Wrong("an input was changed")
    if said.returncode in (0, 1):
        checked = run(options.dgc, "check", *out)
        if (checked.returncode, (checked.stdout + checked.stderr).splitlines()) != (said.returncode, verdict):
            raise Wrong("check says something else")
        if not fixes and (read(out[0]), read(out[1])) != before:
            raise Wrong("a text was changed without a fix")
    return fixes, said.returncode, " ".join(verdict), out


def outcome(options, folder, right, shapes, mistake, mends):
    """Which column of the table a module is counted in."""
    module, cert = os.path.join(folder, "wrong.ll"), os.path.join(folder, "wrong.cert")
    write(module, mistake[0])
    write(cert, mistake[1])
    if run(options.dgc, "check", module, cert).returncode == 0:
        raise Wrong("the mistake is accepted")
    fixes, status, verdict, out = answer_of(options, folder, module, cert)
    if status == 0 and read(out[0]) != mistake[0]:
        compare_runs(options, folder, right, out[0], shapes)
    if mends and status != 0:
        raise Wrong(f"no yes: {verdict}")
    return "yes" if status == 0 else "further" if fixes else "none"


def programs(options, folder):
    """The right programs, each with its certificate and its shapes."""
    for module in sorted(glob.glob(os.path.join(FOLDER, "*.ll"))):
        name = os.path.basename(module)[:-3]
        shapes = module[:-3] + ".shapes"
        made = run(options.dgc, "make", module, "--shapes", shapes)
        if made.returncode:
            sys.exit(f"{name}: no certificate is made")
        yield name, module, shapes, made.stdout


def main():
    told = argparse.ArgumentParser(description=__doc__, formatter_class=argparse.RawDescriptionHelpFormatter)
    told.add_argument("dgc")
    told.add_argument("--traces", type=int, default=5)
    told.add_argument("--steps", type=int, default=2000)
    told.add_argument("--verbose", action="store_true", help="a line for each module")
    options = told.parse_args()
    wrong = 0
    with tempfile.TemporaryDirectory() as folder:
        right = list(programs(options, folder))
        print("| Mistake | Modules | Fixed: yes | Fixed: another refusal | No safe fix |")
        print("|---|---:|---:|---:|---:|")
        for kind, make, mends in KINDS:
            counts = {"yes": 0, "further": 0, "none": 0}
            for name, module, shapes, cert in right:
                try:
                    which = outcome(options, folder, module, shapes, make(read(module), cert), mends)
                    counts[which] += 1
                    if options.verbose:
                        print(f"{kind}: {name}: {which}", file=sys.stderr)
                except Wrong as found:
                    wrong += 1
                    print(f"{kind}: {name}: {found}", file=sys.stderr)
            print(f"| {kind} | {sum(counts.values())} | {counts['yes']} | {counts['further']} | {counts['none']} |")
    print(f"{wrong} wrong")
    sys.exit(1 if wrong else 0)


main()
