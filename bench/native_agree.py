#!/usr/bin/env python3
"""Compares what threads return in native programs beside the runtime of runtime/ with what they return in `dgc replay`.

    native_agree.py DGC [--threads N] [--seed S] [--versions V ..] [--keep FOLDER]

Draws modules of agree.py (sixty functions each), lowers them by `dgc lower`, and compiles each by
LLVM 14 and the newest that is installed, at -O0, -O1, -O2 and -O3. Each function is a native thread beside the collector. Each begins
late, when the one before has ended, as the interpreter runs them: their globals are shared. Goes on until N native threads (2,000) were
compared. Prints how many were the same, and ends with 1 at the first that is not.
"""
import argparse
import os
import random
import re
import shutil
import subprocess
import sys
import tempfile

import agree
import natively

LEVELS = "0123"
MAIN = """#include "dgrt.h"
#include <pthread.h>
#include <inttypes.h>
#include <stdio.h>
#include <stdlib.h>
static const struct { const char *name; uint64_t arguments[8]; } starts[] = {%s};
static void *serve(void *of) {
    uint64_t i = (uint64_t)of, k = 0;
    for (const char *a = dg_starts[k].name, *b = starts[i].name; k < dg_start_count; a = dg_starts[++k].name) {
        const char *c = b;
        while (*a && *a == *c) { a++; c++; }
        if (!*a && !*c) break;
    }
    dg_attach(DG_ANY);
    uint64_t result = dg_starts[k].run(starts[i].arguments);
    if (dg_starts[k].result == DG_NOTHING) printf("t %%" PRIu64 " returned\\n", i);
    else if (dg_starts[k].result == DG_INTEGER) printf("t %%" PRIu64 " returned %%" PRIu64 "\\n", i, result);
    else printf("t %%" PRIu64 " returned %%s\\n", i, result ? "ref" : "null");
    dg_detach();
    return 0;
}
int main(void) {
    uint32_t *cells = calloc(dg_layout_count + 1, sizeof *cells);
    for (uint64_t i = 0; i < dg_layout_count; i++) cells[i] = %d;
    if (dg_open(&(struct dg_setup){.cells = cells})) return 4;
    for (uint64_t i = 0; i < sizeof starts / sizeof *starts; i++) {
        pthread_t thread;
        void *ended;
        if (pthread_create(&thread, 0, serve, (void *)i)) return 4;
        pthread_join(thread, &ended);
        if (ended == dg_ended) printf("t %%" PRIu64 " ended\\n", i);
    }
    dg_close(0);
    return 0;
}
"""


def drawn(words, folder, number):
    """A drawn module that is lowered, what its threads return, and a main in C that runs them one after another."""
    base = os.path.join(folder, f"m{number}")
    agree.write(base, agree.Module(random.Random(number)))
    replayed = natively.done([words.dgc, "replay", base + ".ll", base + ".trace"]).splitlines()
    wanted = [re.sub("returned ref .*", "returned ref", line) for line in replayed if line.startswith("t ")]
    with open(base + ".trace") as read:
        starts = [line.split()[1:] for line in read if line.startswith("start ")]
    rows = ", ".join(f'{{"{start[0][1:]}", {{{", ".join(word + "u" for word in start[1:]) or 0}}}}}' for start in starts)
    with open(base + ".c", "w") as out:
        out.write(MAIN % (rows, agree.CELLS))
    natively.lowered(words.dgc, [base + ".ll"], base)
    return base, wanted


def returned(base, version, level):
    """What the threads of a native program return."""
    made = natively.compiled(base + ".low.ll", base, version, level)
    natively.done([f"clang-{version}", "-O1", "-std=c11", "-w", "-pthread", f"-I{natively.RUNTIME}", "-o", base + ".out", made, base + ".c", os.path.join(natively.RUNTIME, "dgrt.c")])
    ran = subprocess.run([base + ".out"], capture_output=True, text=True, timeout=600)
    return ran.stdout.splitlines() + ([f"status {ran.returncode}"] if ran.returncode else [])


def main():
    parser = argparse.ArgumentParser(description=__doc__.split("\n")[0])
    parser.add_argument("dgc", type=os.path.abspath)
    parser.add_argument("--threads", type=int, default=2000)
    parser.add_argument("--seed", type=int, default=0)
    parser.add_argument("--versions", nargs="+", default=["14", natively.newest()])
    parser.add_argument("--keep")
    words = parser.parse_args()
    versions = [version for version in words.versions if shutil.which(f"llc-{version}")]
    threads, number = 0, words.seed
    with tempfile.TemporaryDirectory() as scratch:
        folder = words.keep or scratch
        os.makedirs(folder, exist_ok=True)
        while threads < words.threads:
            base, wanted = drawn(words, folder, number)
            for version in versions:
                for level in LEVELS:
                    found = returned(base, version, level)
                    threads += len(found)
                    if found != wanted:
                        pair = next(((one, two) for one, two in zip(wanted, found) if one != two), (wanted[-1:], found[-1:]))
                        sys.exit(f"module {number}, LLVM {version}, -O{level}: dgc {pair[0]}, the native program {pair[1]}")
            number += 1
            print(f"{number - words.seed} modules, {threads} threads", file=sys.stderr, flush=True)
    print(f"{number - words.seed} modules, {threads} native threads, LLVM {', '.join(versions)}, -O{LEVELS[0]} to -O{LEVELS[-1]}: each returned what dgc replay says")


if __name__ == "__main__":
    main()
