#!/usr/bin/env python3
"""Compares the examples of the documents with the rows of crates/dgc_tests, byte by byte. It runs no command.

    examples.py          says how many examples are as in the documents; or names each place that has no row with
                         the same bytes, and exits with 1

The gate runs each row and compares what it prints. So an example that equals a row is one that the program prints.
Checked are docs/HELP.md, docs/FRONT_ENDS.md, docs/WALKTHROUGH.md, README.md, the files of examples/swap, and the certificates, edits and
printed lines that stand as blocks in docs/CERTIFICATES.md, docs/EDITS.md, docs/TRACES.md and docs/TEXT.md. Not checked are lines within
a paragraph, and blocks that show a form. Those of docs/RULES.md are made from the rows (bench/rules.py). An explanation, which goes to
standard error, stands in the documents after the line that goes to standard output.

docs/FRONT_ENDS.md is written in one form. An example is three blocks: the functions, the certificate, the printed line. After it sentences may say what is printed of a changed example, each thing in backquotes:

    With A in place of B the answer is C.           B, which is there once, becomes A
    With A below B the answer is C.                 the line A comes after the line B
    With A and B in front of C the answer is D.     the lines A and B move to before the line C
    Without A the answer is B.                      the line A is left out
"""
import argparse
import collections
import contextlib
import os
import re
import sys

TOP = os.path.dirname(os.path.dirname(os.path.abspath(__file__)))
DATA = os.path.join("crates", "dgc_tests", "data")
SWAP = os.path.join("examples", "swap")

Row = collections.namedtuple("Row", "args status out err files")
Place = collections.namedtuple("Place", "where found wanted")

QUOTED = r"`[^`]+`"
CHANGE = re.compile(
    rf"With(?P<left>out)? (?P<new>{QUOTED}(?: and {QUOTED})*)"
    rf"(?: (?P<how>in place of|below|in front of) (?P<old>{QUOTED}))? the answer is `(?P<answer>[^`]+)`\."
)
PRINTED = ("yes ", "no ", "sound ", "broken ")


def text_of(path):
    """The text of a file, with the line ends that it has."""
    with open(os.path.join(TOP, path), encoding="utf-8", newline="") as file:
        return file.read()


def read_row(name):
    """The row of this name. A record is no text, and left out."""
    folder = os.path.join(DATA, "rows", name)
    files = {}
    for file in sorted(entry.name for entry in os.scandir(os.path.join(TOP, folder)) if entry.is_file()):
        with contextlib.suppress(UnicodeDecodeError):
            files[file] = text_of(os.path.join(folder, file))
    args, status, out, err = (files.pop(file) for file in ("args", "status", "stdout", "stderr"))
    return Row(args.splitlines(), status.strip(), out, err, files)


def read_rows():
    """The rows that the gate runs."""
    return [read_row(name) for name in text_of(os.path.join(DATA, "rows.txt")).split()]


def pieces(page):
    """The headings, paragraphs and blocks of a page: each with the number of its first line, its kind and its text."""
    found, fence, last = [], None, None
    for number, line in enumerate(text_of(page).split("\n"), 1):
        if fence is not None:
            if line == "```":
                found.append((fence, "block", "\n".join(held)))
                fence = last = None
            else:
                held.append(line)
        elif line.startswith("```"):
            fence, held = number, []
        elif not line:
            last = None
        else:
            kind = "heading" if line.startswith("#") else "block" if line.startswith("    ") else "words"
            line = line[4:] if kind == "block" else line
            if kind == last:
                start, _, text = found.pop()
                found.append((start, kind, text + "\n" + line))
            else:
                found.append((number, kind, line))
            last = kind
    return found


def status_of(printed):
    """The status with which a command ends that prints this."""
    return "1" if printed.startswith(("no ", "broken ")) else "0"


def prints(row, printed):
    """Whether a row prints this, and ends with its status. An explanation, on standard error, stands after the printed line."""
    err = row.err if "--explain" in row.args else ""
    return row.out + err == printed + "\n" and row.err == err and row.status == status_of(printed)


def is_explained(text):
    """Whether a block is the line of a refusal, and its explanation."""
    lines = text.split("\n")
    return lines[0].startswith("no @") and len(lines) > 1 and re.match(r"\S+:\d+:\d+: K\d+: ", lines[1]) is not None


def same_help(words):
    """The other words that docs/HELP.md says print the same as these."""
    if words[-1:] != ["--help"]:
        return []
    return [words[:-1] + ["-h"], ["help"] + words[:-1]]


def help_places(rows):
    """docs/HELP.md: the block under a heading `## dgc ..` is what the row with these words prints. It is also what each row
    prints whose words mean the same."""
    page, places, heading = "docs/HELP.md", [], None
    for number, kind, text in pieces(page) + [(0, "heading", "")]:
        if kind == "heading":
            if heading is not None:
                places.append(Place(heading, False, "no block under this heading"))
            heading = f"{page}:{number}" if text.startswith("## dgc ") else None
            words = text.split()[2:]
        elif kind == "block" and heading is None:
            places.append(Place(f"{page}:{number}", False, "a block without a heading `## dgc ..` of its own"))
        elif kind == "block":
            outputs = [(text + "\n", "", "0"), ("", text + "\n", "4")]
            same = [row for row in rows if row.args in [words] + same_help(words)]
            found = any(row.args == words for row in same)
            found = found and all((row.out, row.err, row.status) in outputs for row in same)
            name = " ".join(["dgc"] + words)
            places.append(Place(f"{page}:{number}", found, f"no row of `{name}` prints this, or another row of it does not"))
            heading = None
    return places


def line_at(lines, wanted):
    """Where the line with these words is, if it is there once."""
    places = [place for place, line in enumerate(lines) if line.strip() == wanted]
    return places[0] if len(places) == 1 else None


def changed(text, new, how, old):
    """The text with a change that the page describes, or None if there is no one place for it."""
    if how == "in place of":
        return text.replace(old, new[0]) if len(new) == 1 and text.count(old) == 1 else None
    lines, moved = text.split("\n"), []
    if how == "below":
        moved = new
    else:
        for words in new:
            place = line_at(lines, words)
            if place is None:
                return None
            moved.append(lines.pop(place))
    if how is not None:
        place = line_at(lines, old)
        if place is None:
            return None
        place += how == "below"
        lines[place:place] = moved
    return "\n".join(lines)


def checks(rows, heads, example, printed):
    """Whether some row checks this module and this certificate, and prints this. An empty line parts the two, and each comes after
    its head."""
    wanted = [head + "\n" + part + "\n" for head, part in zip(heads, example.split("\n\n"))]
    return any(
        row.args[:1] == ["check"] and [row.files.get(name) for name in row.args[1:]] == wanted and prints(row, printed)
        for row in rows
    )


def change_places(rows, where, heads, example, text):
    """The sentences of a paragraph that change an example."""
    places = []
    for found in CHANGE.finditer(text):
        new = [word[1:-1] for word in re.findall(QUOTED, found["new"])]
        old = found["old"][1:-1] if found["old"] else None
        other = None
        if example is not None and bool(found["left"]) == (old is None):
            other = changed(example, new, found["how"], old)
        if other is None:
            places.append(Place(where, False, "this change fits no one place of the example: " + found[0]))
        else:
            held = checks(rows, heads, other, found["answer"])
            places.append(Place(where, held, "no row has the example of: " + found[0]))
    starts = len(re.findall(r"\bWith(?:out)? `", text))
    if len(places) != max(starts, text.count("the answer is")):
        places.append(Place(where, False, "a sentence with `the answer is` or `With` is not in the form of bench/examples.py"))
    return places


def worked_places(rows, page):
    """docs/FRONT_ENDS.md: its first two blocks, after which modules and certificates come; its examples, each of three blocks, and the
    sentences that change them."""
    places, heads, blocks, example = [], [], [], None
    for number, kind, text in pieces(page) + [(0, "words", "")]:
        where = f"{page}:{number}"
        if kind == "block" and len(heads) < 2:
            heads.append(text)
        elif kind == "block":
            blocks.append((where, text))
            if len(blocks) == 3:
                where, example = blocks[0][0], blocks[0][1] + "\n\n" + blocks[1][1]
                held = checks(rows, heads, example, text)
                places.append(Place(where, held, "no row has this module, this certificate and this line: " + text))
                blocks = []
        else:
            if blocks:
                places.append(Place(blocks[0][0], False, "an example without its three parts"))
                blocks = []
            if kind == "heading" or text.startswith("**"):
                example = None
            places += change_places(rows, where, heads, example, text)
    return places


def may_stand_for(args, words):
    """Whether a row's command is this one, or the same soak with at most as many seeds and steps."""
    if args[:1] != ["soak"] or words[:1] != ["soak"] or len(args) != len(words):
        return args == words
    for before, arg, word in zip([None] + args, args, words):
        fewer = before in ("--seeds", "--steps") and arg.isdecimal() and word.isdecimal() and int(arg) <= int(word)
        if arg != word and not fewer:
            return False
    return True


def command_place(rows, where, command, printed):
    """A command in examples/swap, with what it prints."""
    words = command.split()[1:]
    found = any(
        may_stand_for(row.args, words)
        and prints(row, printed)
        and all(text == swap_file(name) for name, text in row.files.items())
        for row in rows
    )
    return Place(where, found, f"no row with the files of {SWAP} has `{command}` and prints `{printed}`")


def swap_file(name):
    """The text of a file of examples/swap, or None if there is none of this name."""
    path = os.path.join(SWAP, name)
    return text_of(path) if os.path.isfile(os.path.join(TOP, path)) else None


def bare(text):
    """The lines of a text without comments and indentation."""
    return [line.split(";")[0].strip() for line in text.rstrip("\n").split("\n")]


def is_part(part, text):
    """Whether the part is the text's end from its first line on. Of other parts than certificates, shapes, traces and functions:
    whether its lines are together in the text, comments and indentation aside."""
    if part.startswith("define "):
        return text.endswith("\n" + part + "\n")
    if part.startswith(("cert ", "shapes ", "trace ")):
        return text == part + "\n"
    lines, whole = bare(part), bare(text)
    return any(whole[place : place + len(lines)] == lines for place in range(len(whole)))


def is_file(rows, text):
    """Whether some row has this text as a file."""
    return any(text + "\n" in row.files.values() for row in rows)


def story_places(rows, page):
    """docs/WALKTHROUGH.md and README.md: commands with what they print, and parts of the files of examples/swap."""
    places, named, command = [], None, None
    for number, kind, text in pieces(page):
        where = f"{page}:{number}"
        if command and (kind != "block" or text.startswith("dgc ")):
            places.append(Place(where, False, f"`{command}` stands without what it prints"))
            command = None
        if command:
            places.append(command_place(rows, where, command, text))
            command = None
        elif kind == "block" and text.startswith("dgc "):
            for line in text.split("\n"):
                line, _, printed = (part.strip() for part in line.partition("  "))
                if printed:
                    places.append(command_place(rows, where, line, printed))
                elif "MODULE" not in line:
                    command = line
        elif kind == "block" and is_explained(text):
            places.append(Place(where, any(prints(row, text) for row in rows), "no row prints this"))
        elif kind == "block" and text.startswith("cert ") and swap_file(named or "") is None:
            places.append(Place(where, is_file(rows, text), "no row has this certificate"))
        elif kind == "block" and not text.startswith(("cd ", "python3 ", "rt ", "error ")):
            held = swap_file(named or "")
            places.append(Place(where, held is not None and is_part(text, held), f"{named} of {SWAP} has no such lines"))
        if kind == "heading":
            named = None
        for name in re.findall(r"\w+\.(?:ll|cert|shapes|trace)\b", text):
            named = name
    if command:
        places.append(Place(page, False, f"`{command}` stands without what it prints"))
    return places


def file_places(rows):
    """examples/swap: each file is a file of some row."""
    places = []
    for folder, _, names in sorted(os.walk(os.path.join(TOP, SWAP))):
        for name in sorted(names):
            path = os.path.relpath(os.path.join(folder, name), TOP)
            found = any(row.files.get(name) == text_of(path) for row in rows)
            places.append(Place(path, found, "no row has this file"))
    return places


def form_places(rows, page):
    """Pages of forms: their blocks that are a certificate, edits or what is printed."""
    places = []
    for number, kind, text in pieces(page):
        whole_trace = text.startswith("trace ") and text.endswith("\nend") and ";" not in text
        if kind == "block" and (text.startswith("cert ") or "\nfunction @" in text or whole_trace):
            places.append(Place(f"{page}:{number}", is_file(rows, text), "no row has this file"))
        elif kind == "block" and (text.startswith(PRINTED) or re.search(r" \d+$", text)):
            found = any(prints(row, text) for row in rows)
            places.append(Place(f"{page}:{number}", found, "no row prints this"))
    return places


def main():
    argparse.ArgumentParser(description=__doc__.split("\n")[0]).parse_args()
    rows = read_rows()
    places = help_places(rows) + worked_places(rows, "docs/FRONT_ENDS.md")
    for page in ("docs/WALKTHROUGH.md", "README.md"):
        places += story_places(rows, page)
    places += file_places(rows)
    for page in ("docs/CERTIFICATES.md", "docs/EDITS.md", "docs/TRACES.md", "docs/TEXT.md"):
        places += form_places(rows, page)
    faults = [f"{place.where}: {place.wanted}" for place in places if not place.found]
    if faults:
        sys.exit("\n".join(faults))
    print(f"{len(places)} examples as in the documents")


if __name__ == "__main__":
    main()
