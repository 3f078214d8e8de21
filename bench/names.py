#!/usr/bin/env python3
"""Writes the last table of docs/GLOSSARY.md: the types that two crates have by one name, each with its comment.

    names.py            writes the table
    names.py --check    writes nothing; says whether the table is current, and exits with 1 if it is not

A name that has a row of its own under "One name, two things" is left out, and so are the crates of tests. What a type is, is the first sentence of
the comment above it.
"""
import argparse
import glob
import os
import re
import sys

TOP = os.path.dirname(os.path.dirname(os.path.abspath(__file__)))
PAGE = os.path.join(TOP, "docs", "GLOSSARY.md")
HEAD = """
## Types of one name

Other types that two crates have by one name, with the first sentence of each one's comment. `bench/names.py` makes this table.

"""
ITEM = re.compile(r"((?:^ *///.*\n)*)(?:^ *#\[.*\]\n)*^(?:pub(?:\(crate\))? )?(?:struct|enum|trait) (\w+)", re.M)


def sentence(comment):
    """The first sentence of a comment."""
    words = " ".join(line.strip().removeprefix("///").strip() for line in comment.strip().split("\n"))
    return re.split(r"(?<=\.) ", words)[0].replace("|", "\\|")


def types():
    """By its name, where each type stands and what it is."""
    held = {}
    for path in sorted(glob.glob(os.path.join(TOP, "crates", "*", "src", "**", "*.rt"), recursive=True)):
        place = os.path.relpath(path, os.path.join(TOP, "crates"))
        crate = place.split(os.sep)[0]
        if not crate.endswith("_tests"):
            for comment, name in ITEM.findall(open(path, encoding="utf-8").read()):
                held.setdefault(name, []).append((crate, place, sentence(comment)))
    return held


def table(page):
    """The rows of the types that have none under "One name, two things"."""
    own = set(re.findall(r"^\| `(\w+)` \|", page.partition("\n## One name, two things\n")[2], re.M))
    lines = ["| Name | What it is |", "|---|---|"]
    for name, places in sorted(types().items()):
        if len({crate for crate, _, _ in places}) > 1 and name not in own:
            lines.append(f"| `{name}` | " + " ".join(f"[{crate}](../crates/{place}): {words}" if words else f"[{crate}](../crates/{place})." for crate, place, words in places) + " |")
    return "\n".join(lines) + "\n"


def main():
    parser = argparse.ArgumentParser(description=__doc__.split("\n")[0])
    parser.add_argument("--check", action="store_true", help="only say whether the table is current")
    options = parser.parse_args()
    with open(PAGE, encoding="utf-8") as file:
        held = file.read()
    before = held.partition(HEAD)[0]
    text = before + HEAD + table(before)
    if options.check:
        if held != text:
            sys.exit("docs/GLOSSARY.md: its last table is not current: run bench/names.py")
        print("the last table of docs/GLOSSARY.md is current")
        return
    with open(PAGE, "w", encoding="utf-8") as out:
        out.write(text)


if __name__ == "__main__":
    main()
