#!/usr/bin/env python3
"""Plants changes into the runtime of examples/records, records runs of it, and looks at what `dgc conform` says of each.

    records.py DGC [--runs R] [--stall N] [--cc COMPILER] [--only WORD ..] [--seconds S]

Each change is one place of runtime.c. R runs of each are recorded (4 where it is not set), in which one step of N waits (20). A change that
the profile allows has to conform in each run. Of any other each run has to be named, and by one of the codes beside it; where it
does harm only in some runs, one is enough. Prints a line for each, and ends with status 1 where one is not so. For use by hand.
"""
import argparse
import os
import subprocess
import sys
import tempfile

EXAMPLE = os.path.join(os.path.dirname(os.path.dirname(os.path.abspath(__file__))), "examples", "records")
ALLOWED, NAMED, SOMETIMES = "conforms", "is named", "is named or conforms"

MARKS = """    if (old) mark(old);
    if (!is_async(me.stage) && new) mark(new);
"""
STORE = "    STEP(atomic_store(place, new), me.number, DG_STORE, cell_at(place), word_at(place), told(place, new));\n"
GLOBALS = "        STEP(before = raise_to(&globals_colour, 2 * k), DG_COLLECTOR, DG_MARK_FOUND, 0, 0, before);\n"
ASYNC = "        if (!post(3 * k)) break;\n"
SYNCS = "        if (!post(3 * k - 2) || !post(3 * k - 1)) break;\n"
CLAIMS = "    for (uint32_t c = hint + 1; c <= cell_count; c++) if (claim(c)) { me.hint = c; return ref_of(&cells[c]); }\n"
ROOT = "    each_root(frame->next, visit);\n"

# what is changed, the text and what stands in its place, and what has to be said of the runs
CHANGES = [
    ("nothing is changed", "", "", ALLOWED, ""),
    ("the old value is not marked", "    if (old) mark(old);\n", "", NAMED, "H2 H4"),
    ("the new value is not marked at sync stages", "    if (!is_async(me.stage) && new) mark(new);\n", "", NAMED, "H4"),
    ("the store comes before the marks", MARKS + STORE, STORE + MARKS, NAMED, "H4 H2"),
    ("claims are white at Async", "is_async(stage) ? 2 * k + 1 : 2 * k - 1", "2 * k - (k > 0)", NAMED, "H3"),
    ("roots are not marked at Async", "    if (is_async(stage)) each_root(me.frames, mark);\n", "", NAMED, "H5"),
    ("roots are marked at each answer", "    if (is_async(stage)) each_root(me.frames, mark);\n", "    each_root(me.frames, mark);\n", NAMED, "H2"),
    ("the roots of the newest frame alone are marked", "if (is_async(stage)) each_root(me.frames, mark);", "if (is_async(stage)) for (int i = 0; i < me.frames->roots; i++) if (me.frames->slot[i]) mark(me.frames->slot[i]);", NAMED, "H5"),
    ("there is one sync stage", "!post(3 * k - 2) || ", "", NAMED, "H15"),
    ("the collector waits for no answer", "            if (found == stage || found == DG_DONE) break;\n", "            break;\n", NAMED, "H15 H16"),
    ("the globals are marked after Async is posted", GLOBALS + ASYNC, ASYNC + GLOBALS, NAMED, "H15"),
    ("there is one pass alone", "for (bool met = true; met;) {", "for (bool met = true; met; met = false) {", NAMED, "H13 H14"),
    ("grey cells are freed too", "colour >= grey) continue;", "colour > grey) continue;", ALLOWED, ""),
    ("a freed cell is not cleared", "for (uint32_t w = 0; w < WORDS; w++) STEP", "for (uint32_t w = 0; w < 0; w++) STEP", SOMETIMES, "H14"),
    ("cells are tried downwards", CLAIMS, CLAIMS.replace("hint + 1; c <= cell_count; c++", "cell_count; c > hint; c--"), ALLOWED, ""),
    ("there are no looks out of turn", "    while (shade_count) met |=", "    while (0) met |=", ALLOWED, ""),
    ("the answer comes before the marks", "    if (is_async(stage)) each_root(me.frames, mark);\n    stall();\n", "    bool later = is_async(stage);\n    stall();\n", NAMED, "H5"),
    # four more
    ("a list is cut by a plain store", "        dg_write(WORD(frame.slot[1], NEXT), 0);\n", "        dg_store(WORD(frame.slot[1], NEXT), 0);\n", NAMED, "H10"),
    ("a root is kept in a register over a safepoint", "    struct frame frame = {me.frames, 2, {list, 0}};\n", "    struct frame frame = {me.frames, 1, {list, 0}};\n", NAMED, "H4 H5 H7"),
    ("the sweep leaves the first cell out", "    for (uint32_t c = 1; c <= cell_count; c++) {\n        uint64_t colour;", "    for (uint32_t c = 2; c <= cell_count; c++) {\n        uint64_t colour;", NAMED, "H13"),
    ("a scanned cell becomes white", "STEP(atomic_store(colour, grey + 1), DG_COLLECTOR, DG_BLACKEN", "STEP(atomic_store(colour, grey - 1), DG_COLLECTOR, DG_BLACKEN", NAMED, "H3"),
]


def record(words, room, source, number):
    """Builds the changed runtime and records a run. Returns the path of the record; it may be cut, where the run crashed."""
    program, path = os.path.join(room, "runtime"), os.path.join(room, "run.record")
    if number == 0:
        with open(os.path.join(room, "runtime.c"), "w") as out:
            out.write(source)
        subprocess.run([words.cc, "-std=c11", "-O2", "-w", "-pthread", "-DDG_RECORD", f"-I{EXAMPLE}", "-o", program, os.path.join(room, "runtime.c")], check=True)
    try:
        subprocess.run([program, path], env={**os.environ, "DG_STALL": str(words.stall), "DG_RECORD_EACH": "1"}, timeout=words.seconds, stderr=subprocess.DEVNULL)
    except subprocess.TimeoutExpired:
        pass
    return path


def wrong(wanted, codes, answers):
    """What is not as wanted of the answers to some runs, or None."""
    for answer in answers:
        named = answer.split()[0] == "no"
        if named and (wanted == ALLOWED or answer.split()[-1] not in codes.split()):
            return f"not one of {codes}" if codes else "it is allowed"
        if not named and wanted == NAMED:
            return "it has to be named"
    return None


def main():
    asked = argparse.ArgumentParser(description=__doc__.split("\n")[0])
    asked.add_argument("dgc")
    asked.add_argument("--runs", type=int, default=4)
    asked.add_argument("--stall", type=int, default=20)
    asked.add_argument("--seconds", type=int, default=30)
    asked.add_argument("--cc", default="cc")
    asked.add_argument("--only", nargs="*", default=[])
    words = asked.parse_args()
    with open(os.path.join(EXAMPLE, "runtime.c")) as read:
        source = read.read()
    bad = False
    for name, text, change, wanted, codes in CHANGES:
        if words.only and not any(word in name for word in words.only):
            continue
        assert source.count(text) == 1 or not text, name
        with tempfile.TemporaryDirectory() as room:
            answers = []
            for number in range(words.runs):
                path = record(words, room, source.replace(text, change, 1) if text else source, number)
                files = [os.path.join(EXAMPLE, "lists.ll"), os.path.join(EXAMPLE, "lists.trace"), path, "--shapes", os.path.join(EXAMPLE, "lists.shapes")]
                said = subprocess.run([words.dgc, "conform", *files], stdout=subprocess.PIPE, stderr=subprocess.STDOUT, text=True)
                answers.append(said.stdout.strip().split("\n")[0] or f"status {said.returncode}")
        fault = wrong(wanted, codes, answers)
        bad = bad or fault is not None
        print(f"{name}: {', '.join(answers)}{f'  ({fault})' if fault else ''}", flush=True)
    sys.exit(1 if bad else 0)


if __name__ == "__main__":
    main()
