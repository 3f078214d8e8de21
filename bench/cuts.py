#!/usr/bin/env python3
"""Cuts the texts of rows at each byte, changes each byte, and looks at what `dgc` says of what is left.

    cuts.py DGC [ROW ..]

Takes rows of crates/dgc_tests/data, by default those of a few modules with typed pointers and with `ptr`. Each file of a row is cut at each
of its bytes, and each of its bytes is replaced by a blank, a quote, a brace, a zero and by 255. The row's command has to print what
it may print (hostile.py). Where it names a place, that has to lie within a text of the code's kind, or at its end; where it says
yes of a front, it is of no more functions than the whole has. Many cases are run in one process (cases.c). Prints how many there
were of each row, and each wrong one. Ends with status 1 where there is one. For use by hand.
"""
import argparse
import collections
import os
import re
import sys
import tempfile

from cases import Case, Runner
from hostile import ROWS, fault_of
from hostile_texts import end_of, read_rows

DEFAULT = ["two", "six", "six_as_printed", "store_in_the_middle", "late_full_cycle", "edits_of_each_kind", "opaque_cell_into_a_slot",
           "opaque_steps_of_two_threads", "opaque_front_end_sum_accepted", "explained_stale_argument", "explained_edits_refused"]
BYTES = b' "{\0\xff'
SECONDS, BATCH = 60, 200
# whose places a code tells, by the end of the file's name
KINDS = {b"L": ("ll",), b"C": ("cert", "shapes", "edits"), b"P": ("trace",)}


def changed(text):
    """The fronts of a text, and the text with each byte replaced."""
    yield from (text[:at] for at in range(len(text)))
    yield from (text[:at] + bytes([byte]) + text[at + 1:] for at in range(len(text)) for byte in BYTES if text[at] != byte)


def is_within(line, column, text):
    """Whether a text has this place, or ends there."""
    lines = text.split(b"\n")
    return line <= len(lines) and column <= len(lines[line - 1]) + 1


def wrong_place(case, ended):
    """Why what is named is no place of a text, or nothing."""
    named = re.match(rb"error ([LCP])\d+ (\d+):(\d+)", ended.stderr)
    if not named:
        return ""
    texts = [text for name, text in case.texts.items() if end_of(name) in KINDS[named[1]]]
    line, column = int(named[2]), int(named[3])
    return "" if any(is_within(line, column, text) for text in texts) else f"no such place: {named[0].decode()}"


def wrong_yes(whole, case, ended):
    """Why a yes is not one of a front, or nothing."""
    said = re.fullmatch(rb"yes (\d+)\n", ended.stdout)
    functions = len(re.findall(rb"^\s*define ", case.texts[case.words[1]], re.M))
    is_front = whole.startswith(case.texts[case.words[1]])
    return f"yes of more functions than {functions}" if said and is_front and int(said[1]) > functions else ""


def look(runner, row):
    """Runs a row's command on each changed text. Returns how many there were by status, and the wrong ones."""
    counts, wrong = collections.Counter(), []
    cases = [Case(row.words, {**row.texts, name: text}) for name, whole in row.texts.items() for text in changed(whole)]
    for first in range(0, len(cases), BATCH):
        batch = cases[first:first + BATCH]
        for case, ended in zip(batch, runner.run_all(batch)):
            counts[ended.status] += 1
            fault = fault_of(case.words, ended) or wrong_place(case, ended) or wrong_yes(row.texts[row.words[1]], case, ended)
            if fault:
                wrong.append((fault, ended))
    return counts, wrong


def main():
    options = argparse.ArgumentParser(description=__doc__.split("\n")[0])
    options.add_argument("dgc", type=os.path.abspath)
    options.add_argument("rows", nargs="*", default=DEFAULT)
    options = options.parse_args()
    made = faults = 0
    with tempfile.TemporaryDirectory(dir="/dev/shm" if os.path.isdir("/dev/shm") else None) as folder:
        runner = Runner(options.dgc, folder, SECONDS)
        for row in read_rows(ROWS):
            if row.name not in options.rows:
                continue
            counts, wrong = look(runner, row)
            made, faults = made + sum(counts.values()), faults + len(wrong)
            print(f"{row.name}: " + "  ".join(f"status {status}: {count:,}" for status, count in sorted(counts.items())), flush=True)
            for fault, ended in wrong[:5]:
                print(f"  {fault}: {ended}")
    print(f"{made:,} texts, {faults} wrong")
    sys.exit(1 if faults else 0)


if __name__ == "__main__":
    main()
