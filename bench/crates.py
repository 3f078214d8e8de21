#!/usr/bin/env python3
"""Writes docs/CRATES.md: one table of the crates of this repository.

    crates.py            writes docs/CRATES.md
    crates.py --check    writes nothing; says whether docs/CRATES.md is current, and exits with 1 if it is not

The order, the groups and the crates that each one uses come from crates.txt: a comment line names the group of the crates
below it. A crate may use only crates that are listed above it: where one does not, the script says so and exits with 1. What a crate does is the
first paragraph of the comment at the head of its src/lib.rt or src/main.rt. Source lines are all lines of the .rt files in src/. Edits are the files of must-fail/.
"""
import argparse
import glob
import os
import sys

TOP = os.path.dirname(os.path.dirname(os.path.abspath(__file__)))
PAGE = os.path.join(TOP, "docs", "CRATES.md")
# The crates of which the standard library of the kit is made.
STANDARD = {"core", "std_alloc", "std_heap"}

HEAD = """# Crates

This page is made by `bench/crates.py` from crates.txt, from the first paragraph of the comment at the head of each crate, and from its files. Do not edit it: run the script. `bench/crates.py --check` says whether the page is current.

A crate uses only crates above it in the table. docs/THEOREMS.md says what each one promises, and docs/ARCHITECTURE.md how they fit together. An edit is a change that the prover has to refuse: a file of the crate's folder must-fail/. Each changes code.

"""


def listed():
    """The crates of crates.txt in its order: each with its group and the crates that it uses."""
    group, found = "", []
    with open(os.path.join(TOP, "crates.txt"), encoding="utf-8") as lines:
        for number, line in enumerate(lines):
            line = line.strip()
            if line.startswith("#"):
                group = line.lstrip("# ") if number else group
            elif ":" in line:
                name, uses = line.split(":", 1)
                found.append((name.split()[0], group, uses.split()))
    return found


def check_order(own):
    """Ends with a line where a crate uses one that is listed after it."""
    above, names = set(), {name for name, _, _ in own}
    for name, _, uses in own:
        later = [use for use in uses if use in names and use not in above]
        if later:
            sys.exit(f"crates.txt: {name} uses {', '.join(later)}, listed after it")
        above.add(name)


def described(name):
    """The first paragraph of the comment at the head of a crate's root file."""
    for root in ("lib.rt", "main.rt"):
        path = os.path.join(TOP, "crates", name, "src", root)
        if os.path.isfile(path):
            words = []
            with open(path, encoding="utf-8") as lines:
                for line in lines:
                    if not line.startswith("//!") or not line[3:].strip():
                        break
                    words.append(line[3:].strip())
            return " ".join(words).replace("|", "\\|")
    sys.exit(f"crates.py: {name} has no src/lib.rt and no src/main.rt")


def source_lines(name):
    """How many lines its source files have."""
    paths = glob.glob(os.path.join(TOP, "crates", name, "src", "**", "*.rt"), recursive=True)
    return sum(sum(1 for _ in open(path, encoding="utf-8")) for path in paths)


def edits(name):
    """How many edits it has."""
    return len(glob.glob(os.path.join(TOP, "crates", name, "must-fail", "*.edit")))


def page():
    """The text of the page."""
    own = listed()
    check_order(own)
    names = {name for name, _, _ in own}
    lines = ["| Crate | Does | Uses | Source lines | Edits |", "|---|---|---|---:|---:|"]
    total, all_edits, last = 0, 0, None
    for name, group, uses in own:
        if group != last:
            lines.append(f"| **{group}** | | | | |")
            last = group
        count, made = source_lines(name), edits(name)
        total, all_edits = total + count, all_edits + made
        within = " ".join(f"`{use}`" for use in uses if use in names)
        lines.append(f"| `{name}` | {described(name)} | {within} | {count:,} | {made} |")
    lines.append(f"| {len(own)} crates | | | {total:,} | {all_edits} |")
    kit = sorted({use for _, _, uses in own for use in uses if use not in names} - STANDARD)
    foot = "\n\nCrates of the kit, other than its standard library, that are used: " + ", ".join(f"`{name}`" for name in kit) + ".\n"
    return HEAD + "\n".join(lines) + foot


def main():
    parser = argparse.ArgumentParser(description=__doc__.split("\n")[0])
    parser.add_argument("--check", action="store_true", help="only say whether docs/CRATES.md is current")
    options = parser.parse_args()
    text = page()
    if not options.check:
        with open(PAGE, "w", encoding="utf-8") as out:
            out.write(text)
        return
    held = open(PAGE, encoding="utf-8").read() if os.path.isfile(PAGE) else ""
    if held != text:
        sys.exit("docs/CRATES.md is not current: run bench/crates.py")
    print("docs/CRATES.md is current")


if __name__ == "__main__":
    main()
