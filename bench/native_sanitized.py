#!/usr/bin/env python3
"""Runs the programs of examples/native beside the runtime of runtime/ under ThreadSanitizer and AddressSanitizer.

    native_sanitized.py DGC [--rounds N] [--version V] [--only WORD ..] [--planted]

Both look at the module and at the runtime. For AddressSanitizer the words of free cells are poisoned, so a touch of one is told. Each
program runs with four threads, of which two come late, in pools that are soon full; lists, trees and queues end, and swap is stopped
after two seconds. Prints how many cells were claimed and in how many cycles, and ends with 1 where a sanitizer tells something.

With --planted the runtime has a mistake: for ThreadSanitizer a store that is not atomic, for AddressSanitizer roots that are not marked.
Then lists, trees and queues run alone, and it ends with 1 where a sanitizer tells nothing.
"""
import argparse
import os
import subprocess
import sys
import tempfile

import native_planted
import natively

PROGRAMS = {"lists": [("struct.node", 2000)], "trees": [("struct.tree", 2000)], "queues": [("struct.node", 2000), ("struct.queue", 60)], "swap": [("Node", 8)]}
ATOMIC = "STEP(atomic_store((word *)place, (uint64_t)value), me.number, DG_STORE, "
# Changes as in native_planted.py.
PLANTED = {
    "thread": ("the store is not atomic", "dgrt.c", ATOMIC, "STEP(*(uint64_t *)place = (uint64_t)value, me.number, DG_STORE, "),
    "address": ("roots are not marked at Async", "dgrt.c", native_planted.ROOTS, ""),
}
NAMED = {"thread": "ThreadSanitizer: data race", "address": "AddressSanitizer: use-after-poison"}


def module_of(words, folder, name):
    """The paths of the module of a program and of its certificate."""
    if name == "swap":
        return [os.path.join(natively.TOP, "examples", "swap", file) for file in ("barrier.ll", "swap.cert")]
    return natively.module_of_c(words.dgc, os.path.join(natively.TOP, "examples", "native", name + ".c"), os.path.join(folder, name), words.version)


def told_of(name, program, path):
    """What a sanitizer tells of a run of a program, or nothing; and the last line that the program prints."""
    command = ["timeout", "-s", "TERM", "2" if name == "swap" else "600", program, path]
    ran = subprocess.run(command, capture_output=True, text=True, env={**os.environ, "TSAN_OPTIONS": "halt_on_error=1"})
    is_told = "Sanitizer" in ran.stderr or ran.returncode not in ([124] if name == "swap" else [0])
    return (ran.stderr[:3000] or f"status {ran.returncode}") if is_told else "", (ran.stdout.splitlines() or ["stopped"])[-1]


def judged(words, folder, name, sanitizer, module):
    """Whether a sanitizer tells of a program what it has to, and a line on that."""
    path = os.path.join(folder, name + ".trace")
    runtime = native_planted.changed(folder, PLANTED[sanitizer]) if words.planted else natively.RUNTIME
    told, last = told_of(name, natively.program(words.dgc, module, path[:-6] + "." + sanitizer, words.version, sanitizer=sanitizer, runtime=runtime), path)
    if not words.planted:
        return told == "", f"{name}, {sanitizer}: {told or 'nothing is told; ' + last}"
    is_named = NAMED[sanitizer] in told
    return is_named, f"{name}, {sanitizer}, {PLANTED[sanitizer][0]}: {NAMED[sanitizer] if is_named else 'not told: ' + (told or last)}"


def main():
    parser = argparse.ArgumentParser(description=__doc__.split("\n")[0])
    parser.add_argument("dgc", type=os.path.abspath)
    parser.add_argument("--rounds", type=int, default=200)
    parser.add_argument("--version", default=natively.newest())
    parser.add_argument("--only", nargs="*", default=list(PROGRAMS))
    parser.add_argument("--planted", action="store_true")
    words = parser.parse_args()
    bad = False
    with tempfile.TemporaryDirectory() as folder:
        for name in [name for name in words.only if not (words.planted and name == "swap")]:
            module = module_of(words, folder, name)
            starts = ["@swap" if name == "swap" else f"@work {words.rounds} 40 {number}" for number in range(4)]
            with open(os.path.join(folder, name + ".trace"), "w") as out:
                out.write(natively.trace(PROGRAMS[name], starts[2:], starts[:2]))
            for sanitizer in natively.SANITIZED:
                is_right, line = judged(words, folder, name, sanitizer, module)
                bad = bad or not is_right
                print(line, flush=True)
    sys.exit(1 if bad else 0)


if __name__ == "__main__":
    main()
