#!/usr/bin/env python3
"""show.py RECORD [FIRST [LAST]]: the steps of a record in words, each with its number, as `dgc conform` counts them. docs/RECORDS.md has the format."""
import struct, sys

THREAD = {
    1: "reads word {word} of cell {cell}: {value}", 2: "reads the old value in word {word} of cell {cell}: {value}", 3: "marks cell {cell}",
    4: "stores {value} in word {word} of cell {cell}, after the barrier", 5: "stores {value} in word {word} of cell {cell}, plainly",
    6: "claims cell {cell}: won", 7: "claims cell {cell}: lost", 8: "reads the posted stage: {stage}", 9: "stores its stage {stage}",
    10: "reads the posted stage first: {stage}", 11: "enters at stage {stage}", 12: "reads the posted stage again: {stage}"}
COLLECTOR = {
    21: "posts stage {stage}", 22: "reads the stage of thread {cell}: {stage}", 23: "marks cell {cell}, which had colour {value}",
    24: "reads the colour of cell {cell}: {value}", 25: "scans word {word} of cell {cell}: {value}", 26: "blackens cell {cell}",
    27: "clears word {word} of cell {cell}", 28: "frees cell {cell}"}


def stage_words(stage):
    if stage == 2**64 - 1:
        return "done"
    return f"{stage} ({('Async', 'Sync1', 'Sync2')[stage % 3]} of cycle {(stage + 2) // 3})"


def main():
    if not 2 <= len(sys.argv) <= 4:
        sys.exit(__doc__)
    first = int(sys.argv[2]) if len(sys.argv) > 2 else 1
    last = int(sys.argv[3]) if len(sys.argv) > 3 else 2**64
    number, roots = 0, {}
    with open(sys.argv[1], "rb") as record:
        while number < last and len(entry := record.read(16)) == 16:
            actor, kind, word, cell, value = struct.unpack("<BBHIQ", entry)
            if actor != 255 and kind == 13:
                roots.setdefault(actor, []).append(cell)
                continue
            number += 1
            words = (COLLECTOR if actor == 255 else THREAD).get(kind, f"makes no step: kind {kind}")
            text = words.format(word=word, cell=cell, value=value, stage=stage_words(value))
            if actor != 255 and kind == 9:
                named = roots.pop(actor, [])
                text += " with the roots " + " ".join(map(str, named)) if named else " with no root"
            if number >= first:
                print(f"{number} {'c' if actor == 255 else f't {actor}'} {text}")


main()
