#!/usr/bin/env python3
"""Plants changes into the runtime of runtime/, records native runs beside it, and looks at what `dgc conform` says of each.

    native_planted.py DGC [--runs R] [--stall N] [--steps S] [--version V] [--only WORD ..]

Each change is one place of dgrt.c or claims.h. They are those of records.py, and some that this runtime alone can have. R runs of
each are recorded (4 where it is not set), of S steps, in which one step of N waits (20). The program is that of lists in examples/native,
with four threads of which one comes late. A change that the profile allows has to conform in each run. Of any other each run has to be
named, and by one of the codes beside it; where it does harm only in some runs, one is enough. Prints a line for each, and ends with status
1 where one is not so.
"""
import argparse
import os
import shutil
import subprocess
import sys
import tempfile

import natively
from records import ALLOWED, NAMED, SOMETIMES, wrong

MARKS = """    if (old) mark((void *)old);
    if (!is_async(me.stage) && value) mark(value);
"""
STORE = "    STEP(atomic_store((word *)place, (uint64_t)value), me.number, DG_STORE, dg_number(place), word_at(place), told(place, (uint64_t)value));\n"
GLOBALS = "    STEP(before = raise_to(&globals_colour, 2 * k), DG_COLLECTOR, DG_MARK_FOUND, 0, 0, before);\n    (void)before;\n"
ASYNC = "    if (!post(3 * k)) return false;\n"
ROOTS = "    if (is_async(stage)) each_root(mark);\n"
ANSWER = "    STEP(NAME_ROOTS(); atomic_store(&seats[me.number].stage, stage), me.number, DG_STORE_STAGE, 0, 0, stage);\n"
TURNS = "    for (char *cell = pool->base; cell < pool->end; cell += pool->stride)\n        if (!was_tried"
TRY = "        if (!was_tried(tried, cell) && claim(pool, cell)) return cell + 8;\n"
BY_TURNS = "    if (!cell) cell = by_turns(pool, &tried);\n"
NEWEST = "    struct frame *newest = is_async(stage) ? llvm_gc_root_chain : 0;\n    for (int i = 0; newest && i < newest->map->roots; i++) if (newest->slots[i]) mark(newest->slots[i]);\n"

# what is changed, the file, the text and what stands in its place, and what has to be said of the runs
CHANGES = [
    ("nothing is changed", "dgrt.c", "", "", ALLOWED, ""),
    ("the old value is not marked", "dgrt.c", "    if (old) mark((void *)old);\n", "", NAMED, "H2 H4"),
    ("the new value is not marked at sync stages", "dgrt.c", "    if (!is_async(me.stage) && value) mark(value);\n", "", NAMED, "H4"),
    ("the store comes before the marks", "dgrt.c", MARKS + STORE, STORE + MARKS, NAMED, "H4 H2"),
    ("claims are white at Async", "dgrt.c", "is_async(stage) ? 2 * k + 1 : 2 * k - 1", "2 * k - (k > 0)", NAMED, "H3"),
    ("roots are not marked at Async", "dgrt.c", ROOTS, "", NAMED, "H5"),
    ("roots are marked at each answer", "dgrt.c", ROOTS, "    each_root(mark);\n", NAMED, "H2"),
    ("the roots of the newest frame alone are marked", "dgrt.c", ROOTS, NEWEST, NAMED, "H5"),
    ("there is one sync stage", "dgrt.c", "!post(3 * k - 2) || ", "", NAMED, "H15"),
    ("the collector waits for no answer", "dgrt.c", "            if (found == stage || found == DG_DONE) break;\n", "            break;\n", NAMED, "H15 H16"),
    ("the globals are marked after Async is posted", "dgrt.c", GLOBALS + ASYNC, ASYNC + GLOBALS, NAMED, "H15"),
    ("there is one pass alone", "dgrt.c", "    while (pass(2 * k)) { }\n", "    pass(2 * k);\n", NAMED, "H13 H14"),
    ("grey cells are freed too", "dgrt.c", "found >= grey) return false;", "found > grey) return false;", ALLOWED, ""),
    ("a freed cell is not cleared", "dgrt.c", "for (uint32_t at = 0; at < pool->words; at++) STEP", "for (uint32_t at = 0; at < 0; at++) STEP", SOMETIMES, "H14"),
    ("cells are tried downwards", "claims.h", TURNS, TURNS.replace("pool->base; cell < pool->end; cell += pool->stride", "pool->end - pool->stride; cell >= pool->base; cell -= pool->stride"), ALLOWED, ""),
    ("there are no looks out of turn", "dgrt.c", "    while (shade_count) {\n", "    while (0) {\n", ALLOWED, ""),
    ("the answer comes before the marks", "dgrt.c", ROOTS + ANSWER, ANSWER + ROOTS, NAMED, "H5"),
    ("the barrier is a plain store", "dgrt.c", '    touch(place, "write");\n', "    dg_store(place, (uint64_t)value);\n    return;\n", NAMED, "H10"),
    ("the first root of each frame is left out", "dgrt.c", "for (int i = 0; i < frame->map->roots; i++)", "for (int i = 1; i < frame->map->roots; i++)", NAMED, "H4 H5 H7 H9"),
    ("the sweep leaves the first cell out", "dgrt.c", "    for (uint32_t i = 0; i < pool->count; i++) {\n        uint32_t last", "    for (uint32_t i = 1; i < pool->count; i++) {\n        uint32_t last", NAMED, "H13"),
    ("a scanned cell becomes white", "dgrt.c", "STEP(atomic_store(colour, grey + 1), DG_COLLECTOR, DG_BLACKEN", "STEP(atomic_store(colour, grey - 1), DG_COLLECTOR, DG_BLACKEN", NAMED, "H3"),
    # of this runtime alone
    ("a cell is tried twice in a request", "claims.h", TRY, TRY.replace("claim(pool, cell)", "(claim(pool, cell) || claim(pool, cell))"), NAMED, "H12"),
    ("no cell is tried in turn before null", "claims.h", BY_TURNS, "", SOMETIMES, "H2"),
    ("a late thread reads the stage once", "dgrt.c", "        if (first == again) {", "        if (true) {", SOMETIMES, "H2 H6"),
]


def changed(folder, change):
    """A copy of the runtime with a change."""
    name, file, text, new = change[:4]
    runtime = os.path.join(folder, "runtime")
    shutil.rmtree(runtime, ignore_errors=True)
    shutil.copytree(natively.RUNTIME, runtime)
    path = os.path.join(runtime, file)
    with open(path) as read:
        source = read.read()
    assert not text or source.count(text) == 1, name
    with open(path, "w") as out:
        out.write(source.replace(text, new, 1) if text else source)
    return runtime


def said_of(words, folder, base):
    """What `dgc conform` says of a recorded run."""
    environment = {**os.environ, "DG_STALL": str(words.stall), "DG_LIMIT": str(words.steps), "DG_RECORD_EACH": "1"}
    try:
        subprocess.run([os.path.join(folder, "program"), base + ".trace", base + ".record"], env=environment, timeout=words.seconds, capture_output=True)
    except subprocess.TimeoutExpired:
        pass
    said = subprocess.run([words.dgc, "conform", base + ".ll", base + ".trace", base + ".record", *natively.shapes_of(base)], stdout=subprocess.PIPE, stderr=subprocess.STDOUT, text=True)
    return said.stdout.strip().split("\n")[0] or f"status {said.returncode}"


def main():
    asked = argparse.ArgumentParser(description=__doc__.split("\n")[0])
    asked.add_argument("dgc", type=os.path.abspath)
    asked.add_argument("--runs", type=int, default=4)
    asked.add_argument("--stall", type=int, default=20)
    asked.add_argument("--steps", type=int, default=100000)
    asked.add_argument("--seconds", type=int, default=120)
    asked.add_argument("--version", default=natively.newest())
    asked.add_argument("--only", nargs="*", default=[])
    words = asked.parse_args()
    bad = False
    with tempfile.TemporaryDirectory() as folder:
        base = os.path.join(folder, "lists")
        module = natively.module_of_c(words.dgc, os.path.join(natively.TOP, "examples", "native", "lists.c"), base, words.version)
        made = natively.compiled(natively.lowered(words.dgc, module, base + ".rec", records=True), base + ".rec", words.version)
        with open(base + ".trace", "w") as out:
            out.write(natively.trace([("struct.node", 110)], [f"@work 40 8 {n}" for n in range(3)], ["@work 40 8 3"]))
        for change in CHANGES:
            if words.only and not any(word in change[0] for word in words.only):
                continue
            natively.linked([made], os.path.join(folder, "program"), words.version, ["-DRECORD", "-O0"], runtime=changed(folder, change))
            answers = [said_of(words, folder, base) for _ in range(words.runs)]
            fault = wrong(change[4], change[5], answers)
            bad = bad or fault is not None
            print(f"{change[0]}: {', '.join(answers)}{f'  ({fault})' if fault else ''}", flush=True)
    sys.exit(1 if bad else 0)


if __name__ == "__main__":
    main()
