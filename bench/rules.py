#!/usr/bin/env python3
"""Writes what is told of each code that dgc prints: the pages of `dgc explain`, and docs/RULES.md.

    rules.py            writes docs/RULES.md, the files *_texts.rt of crates/explain/src, and the rows explain_CODE of crates/dgc_tests
    rules.py --check    writes nothing; says whether all of them are current, and exits with 1 if one is not

The words come from crates/explain/codes: a file for each first letter, with a part for each code. `== K6` begins a part.
The other lines are `field: text`, and a text goes on to the next field:

    short               what went wrong, for a list of one line each
    rule                what has to hold, in a sentence
    more                when exactly (may be left out)
    why                 why the collector, or the check, needs it
    refused, accepted   a row of crates/dgc_tests: the files and what is printed of them are the example
    explained           a row with the files of the first refused example and --explain always (may be left out); docs/RULES.md has
                        what it prints on standard error, and `dgc explain` has not
    again               words before a further example; docs/RULES.md has these and `dgc explain` has not
    see                 what else to read

So each example is a row, which the gate runs. A record stands in an example as its last steps in words (examples/records/show.py). A page
has at most 80 columns and 60 lines.
"""
import argparse
import collections
import os
import subprocess
import sys
import textwrap

TOP = os.path.dirname(os.path.dirname(os.path.abspath(__file__)))
CODES = os.path.join("crates", "explain", "codes")
TEXTS = os.path.join("crates", "explain", "src")
DATA = os.path.join("crates", "dgc_tests", "data")
COLUMNS, LINES = 80, 60

# How many steps of a record an example shows.
STEPS = 12

FIELDS = ("short", "rule", "more", "why", "again", "refused", "accepted", "explained", "see")

Entry = collections.namedtuple("Entry", "code fields examples")
Example = collections.namedtuple("Example", "kind words row again")
Row = collections.namedtuple("Row", "command files printed whole")

# A family of codes: its letter, the file of its texts, its heading in the list, and the parts of docs/RULES.md with the number of their first code.
Family = collections.namedtuple("Family", "letter file heading parts")
FAMILIES = [
    Family("K", "rule_texts", "Rules of the check", [
        (1, "Operands"), (5, "Words of cells"), (8, "Slots and functions"), (13, "Calls"), (15, "Blocks"), (17, "Marks and callees"),
        (19, "Casts"), (20, "Starts")]),
    Family("L", "module_texts", "Faults of a module's text", [(1, "Faults of a module's text")]),
    Family("C", "certificate_texts", "Faults of a certificate's text", [(1, "Faults of a certificate's text")]),
    Family("Y", "layout_texts", "Faults of layouts and pools", [(1, "Faults of layouts and pools")]),
    Family("P", "trace_texts", "Faults of a trace's text", [(1, "Faults of a trace's text")]),
    Family("H", "record_texts", "Rules of recorded runs", [(1, "Recorded runs")]),
]

HEAD = """# The rules, and the other codes

This page is made by `bench/rules.py` from the texts of crates/explain/codes and from rows of crates/dgc_tests. Do not edit it: run the script. `bench/rules.py --check` says whether the page is current. `dgc explain K6` prints what stands here of one code.

Each instruction of a block is checked with what is known before it: the claims of the certificate at the block, changed by the instructions between. `dgc check` names the first instruction that breaks a rule. Of several rules that it breaks, it names the one of the least number. A condition that asks for something unknown is ignored, since a lower number names that fault.

The conditions of each instruction, and what is known after it, are defined in crates/block_rules/specs: Rules.antt and Calls.antt, which use Operands.antt, Places.antt, Integers.antt, Casts.antt, Elements.antt, Barriers.antt and Promises.antt. What is implied on the edges between blocks is in Edges.antt there.

The collector runs while threads run. It marks what it can reach from the globals and from the root slots that threads hand over at their safepoints, then frees what is not marked. A thread that is between two safepoints may use what it holds in registers. So there are two dangers. A reference is used after a safepoint though no slot held it, and its cell was freed. Or a reference is put into a cell that the collector has scanned already, without telling the collector, and the cell that it leads to is freed. Where `dgc check` accepts the module, neither happens in any schedule. That is so of threads that start at functions of the module, with integer arguments that fit their types and meet what the certificate promises of the parameters (docs/THEOREMS.md).

Of a text that is not read the first fault is printed, with its place: a line and a column, in bytes from 1. docs/TEXT.md, docs/CERTIFICATES.md, docs/TRACES.md and docs/EDITS.md have the forms.

Each example is a row of crates/dgc_tests, which the gate runs: the files, and what is printed of them. The number after a block is the instruction's place in it, from 0. With `--explain always` a refusal is also explained, on standard error: its place in the text, what is known there, and what mends it. Some examples show that. docs/WALKTHROUGH.md has more of them.
"""

LIST_HEAD = "The codes that dgc prints of refusals and faults. `dgc explain K6` tells of one."


def fail(words):
    """Ends with these words."""
    sys.exit("rules.py: " + words)


def text_of(path):
    """The text of a file, or None if there is none."""
    path = os.path.join(TOP, path)
    if not os.path.isfile(path):
        return None
    with open(path, encoding="utf-8", newline="") as file:
        return file.read()


def parts_of(letter):
    """The parts of a file of codes: each code with its fields in order, a name and a text each."""
    path = os.path.join(CODES, letter + ".txt")
    parts = []
    for number, line in enumerate(text_of(path).split("\n"), 1):
        name, colon, text = line.partition(":")
        if line.startswith("== "):
            parts.append((line[3:].strip(), []))
        elif not line.strip() or line.startswith("#"):
            continue
        elif colon and name in FIELDS and parts:
            parts[-1][1].append([name, text.strip()])
        elif parts and parts[-1][1]:
            parts[-1][1][-1][1] += " " + line.strip()
        else:
            fail(f"{path}:{number}: neither a code nor a field")
    return parts


def entry_of(code, fields):
    """What stands of a code: its fields, and its examples in order."""
    held, examples, words = {}, [], None
    for name, text in fields:
        if name == "again":
            words = text
        elif name in ("refused", "accepted"):
            examples.append(Example(name, words, text, words is not None or any(example.again for example in examples)))
            words = None
        elif name in held:
            fail(f"{code}: two fields {name}")
        else:
            held[name] = text
    for name in ("short", "rule", "why", "see"):
        if name not in held:
            fail(f"{code}: no field {name}")
    if [example.kind for example in examples[:2]] != ["refused", "accepted"]:
        fail(f"{code}: it begins with no refused and accepted example")
    return Entry(code, held, examples)


def entries_of(family):
    """The codes of a family, which are numbered from 1."""
    entries = [entry_of(code, fields) for code, fields in parts_of(family.letter)]
    if [entry.code for entry in entries] != [f"{family.letter}{number}" for number in range(1, len(entries) + 1)]:
        fail(f"the codes of {family.letter}.txt are not numbered from 1")
    return entries


def steps_of(path):
    """The last steps of a record in words, each with its number."""
    show = os.path.join(TOP, "examples", "records", "show.py")
    lines = subprocess.run([sys.executable, show, os.path.join(TOP, path)], check=True, capture_output=True, text=True).stdout.splitlines()
    return "\n".join([".."] * (len(lines) > STEPS) + lines[-STEPS:]) + "\n"


def file_of(path):
    """The text that stands for a file of an example."""
    return steps_of(path) if os.path.basename(path) == "record" else text_of(path)


def row_of(name):
    """A row: the command, the texts of its files, and what it prints."""
    folder = os.path.join(DATA, "rows", name)
    if name not in text_of(os.path.join(DATA, "rows.txt")).split():
        fail(f"no row {name}")
    words = text_of(os.path.join(folder, "args")).split()
    command = " ".join(["dgc", words[0]] + [word for word in words if word.startswith("--")])
    files = [file_of(os.path.join(folder, word)) for word in words[1:] if not word.startswith("--")]
    printed = text_of(os.path.join(folder, "stdout")) or text_of(os.path.join(folder, "stderr"))
    lines = printed.rstrip("\n").split("\n")
    return Row(command, files, lines[0], len(lines) == 1)


KINDS = {"cert": "certificate", "trace": "trace", "shapes": "shapes"}


def kind_of(files, place):
    """What a file of an example is, in a word."""
    return KINDS.get(files[place].split()[0], "record") if place else "module"


def same_places(row, before):
    """Which files of an example are those of the one before it; not all of them."""
    held = before.files if before else []
    same = [place for place, text in enumerate(row.files) if place < len(held) and text == held[place]]
    return same if len(same) < len(row.files) else []


def example_of(example, before):
    """An example as a sentence and the lines of its files, those left out that the example before has too."""
    row = row_of(example.row)
    same = same_places(row, before)
    files = [text for place, text in enumerate(row.files) if place not in same]
    kind = example.kind.capitalize()
    if same:
        kind += ", with the same " + " and ".join(kind_of(row.files, place) for place in same)
    prints = "prints" if row.whole else "begins with"
    sentence = f"{kind}: `{row.command}` {prints} `{row.printed}`."
    lines = "\n\n".join(text.rstrip("\n") for text in files).split("\n")
    return row, sentence, ["    " + line if line else "" for line in lines]


def page_of(entry):
    """What `dgc explain` prints of a code."""
    fields = entry.fields
    fill = lambda text, indent="": textwrap.fill(text, COLUMNS, subsequent_indent=indent, break_long_words=False, break_on_hyphens=False)
    paragraphs = [fill(f"{entry.code}  {fields['rule']}", " " * (len(entry.code) + 2))]
    paragraphs += [fill(text) for text in (fields.get("more"), "Why: " + fields["why"]) if text]
    before = None
    for example in entry.examples:
        if not example.again:
            before, sentence, lines = example_of(example, before)
            paragraphs += [fill(sentence), "\n".join(lines)]
    text = "\n\n".join(paragraphs + [fill("See also: " + fields["see"])]) + "\n"
    lines = text.split("\n")
    if max(map(len, lines)) > COLUMNS or len(lines) - 1 > LINES:
        fail(f"{entry.code}: {len(lines) - 1} lines, the longest of {max(map(len, lines))} columns: {max(lines, key=len)}")
    return text


def list_of(families):
    """What `dgc explain` prints without a code."""
    lines = [LIST_HEAD]
    for family, entries in families:
        lines += ["", family.heading + ":"] + [f"  {entry.code:4} {entry.fields['short']}" for entry in entries]
    if max(map(len, lines)) > COLUMNS:
        fail("the list has a line that is too long: " + max(lines, key=len))
    return "\n".join(lines) + "\n"


def explanation_of(entry):
    """What is printed on standard error of the first refused example with --explain always, as paragraphs; none without such a row."""
    name = entry.fields.get("explained")
    if name is None:
        return []
    refused, row = row_of(entry.examples[0].row), row_of(name)
    if row.command != refused.command + " --explain" or row.files[: len(refused.files)] != refused.files:
        fail(f"{name}: not {entry.examples[0].row} with --explain always")
    printed = text_of(os.path.join(DATA, "rows", name, "stderr")).rstrip("\n")
    return ["`--explain always` adds, on standard error:", "\n".join("    " + line for line in printed.split("\n"))]


def told(entry):
    """What docs/RULES.md has of a code."""
    fields = entry.fields
    paragraphs = [f"**{entry.code}. {fields['rule']}** {fields.get('more', '')}".rstrip(), "Why: " + fields["why"]]
    before = None
    for example in entry.examples:
        paragraphs += [example.words] if example.words else []
        before, sentence, lines = example_of(example, before)
        paragraphs += [sentence, "\n".join(lines)]
        if example is entry.examples[0]:
            paragraphs += explanation_of(entry)
    return paragraphs + ["See also: " + fields["see"] + "."]


def rules_page(families):
    """The text of docs/RULES.md."""
    paragraphs = [HEAD.rstrip("\n")]
    table = ["| Code | It is printed where |", "|---|---|"]
    table += [f"| {entry.code} | {entry.fields['short']} |" for _, entries in families for entry in entries]
    paragraphs.append("\n".join(table))
    for family, entries in families:
        parts = dict(family.parts)
        for number, entry in enumerate(entries, 1):
            paragraphs += ["## " + parts[number]] if number in parts else []
            paragraphs += told(entry)
    return "\n\n".join(paragraphs) + "\n"


def literal(text):
    """The text as one of Rattle."""
    return '"\\\n' + text.replace("\\", "\\\\").replace('"', '\\"') + '"'


def texts_of(name, heading, constants, before="pub(crate)"):
    """A file of constants in crates/explain/src: its path, and its text. Before each constant comes whether it is public."""
    head = f"//! {heading}. Made by bench/rules.py from crates/explain/codes: do not edit it.\n"
    text = head + "".join(f"\n{before} const {constant}: &str = {literal(text)};\n" for constant, text in constants)
    return os.path.join(TEXTS, name + ".rt"), text


def text_files(families):
    """The files of constants: the list, and the pages of at most ten codes each."""
    yield texts_of("list_texts", "The list of all codes", [("LIST", list_of(families))], "/// The list of all codes, one a line.\npub")
    for family, entries in families:
        pages = [(entry.code, page_of(entry)) for entry in entries]
        for first in range(0, len(pages), 10):
            some = pages[first : first + 10]
            name = f"{family.file}_from_{first + 1}" if len(pages) > 10 else family.file
            yield texts_of(name, f"What is told of the codes {some[0][0]} to {some[-1][0]}", some)


def row_files(families):
    """The files of the rows of `dgc explain`."""
    names = {"explain_lists_all_codes": (["explain"], list_of(families))}
    for _, entries in families:
        for entry in entries:
            names["explain_" + entry.code.lower()] = (["explain", entry.code], page_of(entry))
    first = families[0][1][0]
    names["explain_in_lower_case"] = (["explain", first.code.lower()], page_of(first))
    listed = text_of(os.path.join(DATA, "rows.txt")).split()
    missing = [name for name in names if name not in listed]
    if missing:
        fail("rows.txt does not list " + " ".join(missing))
    for name, (words, printed) in names.items():
        for file, text in (("args", "\n".join(words) + "\n"), ("status", "0\n"), ("stdout", printed), ("stderr", "")):
            yield os.path.join(DATA, "rows", name, file), text


def made():
    """All files that are made: their paths and their texts."""
    families = [(family, entries_of(family)) for family in FAMILIES]
    yield os.path.join("docs", "RULES.md"), rules_page(families)
    yield from text_files(families)
    yield from row_files(families)


def main():
    parser = argparse.ArgumentParser(description=__doc__.split("\n")[0])
    parser.add_argument("--check", action="store_true", help="only say whether the files are current")
    options = parser.parse_args()
    files = dict(made())
    if options.check:
        old = [path for path, text in files.items() if text_of(path) != text]
        if old:
            sys.exit("not current: run bench/rules.py\n" + "\n".join(old))
        print(f"{len(files)} files are current")
        return
    for path, text in files.items():
        os.makedirs(os.path.join(TOP, os.path.dirname(path)), exist_ok=True)
        with open(os.path.join(TOP, path), "w", encoding="utf-8", newline="") as out:
            out.write(text)


if __name__ == "__main__":
    main()
