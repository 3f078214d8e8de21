#!/usr/bin/env python3
"""Says whether the documents say of the repository what is so. It takes some seconds and needs no program.

    pages.py [--only WORD ..]

It runs the checks of the pages that are made (crates.py, rules.py, names.py) and of the examples (examples.py). Then it looks at what
docs/ARCHITECTURE.md, docs/GLOSSARY.md, docs/ASSURANCE.md and the others say of files and crates:

    layers      each crate of crates.txt is in one layer, and the layers are in its order
    picture     each layer's arrows lead to the layers that it uses, but for those that another of them stands on
    shared      which crates of text and rules use one of the collector's, and what they name of it
    touched     how many files a change touches, by the lists below the table, and by the words that it names
    links       each link of a document leads to a file, and each heading of it that is named is there
    glossary    each file to which a name of two things leads has the name
    counts      the numbers of crates, edits and rows
    version     the version, the logic and the number of the library's interface are the same wherever they stand, and the logic is that
                of the kit, where there is one

It prints what is not as it should be, and ends with 1 where there is something. --only runs those checks alone.
"""
import argparse
import contextlib
import glob
import os
import re
import subprocess
import sys

from crates import TOP, listed

sys.path.append(os.path.join(TOP, "program"))
import translation

HERE = os.path.dirname(os.path.abspath(__file__))
TEXT_LAYERS = ["text", "program data", "check", "thread"]
HEAP_LAYERS = ["collector", "shared heap", "runs"]
# What is said in words of a list of files, and how many files that is.
IN_WORDS = {"the three of a word": 3, "two files of the proof": 2}


def read(*path):
    with open(os.path.join(TOP, *path), encoding="utf-8") as file:
        return file.read()


def section(page, heading):
    """The text under a heading of a page."""
    _, _, after = read("docs", page).partition(f"\n## {heading}\n")
    return re.split(r"\n## ", after)[0]


def rows(text):
    """The rows of the tables in a text, without their heads."""
    cells = [[cell.strip() for cell in line.strip().strip("|").split("|")] for line in text.split("\n") if line.startswith("|")]
    rules = [set(row[0]) <= set("-:") for row in cells] + [False]
    return [row for at, row in enumerate(cells) if not rules[at] and not rules[at + 1]]


def sources(*crates):
    """The files of code, definitions and proofs of some crates, or of all."""
    return [path for crate in crates or ["*"] for kind in ("src/**/*.rt", "specs/**/*.antt", "proofs/**/*.antt")
            for path in glob.glob(os.path.join(TOP, "crates", crate, kind), recursive=True)]


def naming(word):
    """The files of crates/ that have a word."""
    found = re.compile(rf"\b{word}\b")
    return {os.path.relpath(path, os.path.join(TOP, "crates")) for path in sources() if found.search(open(path, encoding="utf-8").read())}


def layers():
    """Each layer with its crates, as docs/ARCHITECTURE.md has them."""
    order = [name for name, _, _ in listed()]
    found = []
    for name, ends, _ in rows(section("ARCHITECTURE.md", "The layers")):
        first, last = re.findall(r"`(\w+)`", ends)
        found.append((name, order[order.index(first):order.index(last) + 1] if first in order and last in order else []))
    return found


def check_layers():
    order = [name for name, _, _ in listed()]
    held = [crate for _, crates in layers() for crate in crates]
    for crate in order:
        if held.count(crate) != 1:
            yield f"{crate} is in {held.count(crate)} layers"
    if held != order and sorted(held) == sorted(order):
        yield "the layers are not in the order of crates.txt"


def uses_of_layers():
    """For each layer the layers of the crates that its crates use."""
    of = {crate: layer for layer, crates in layers() for crate in crates}
    found = {layer: set() for layer, _ in layers()}
    for name, _, used in listed():
        found[of[name]] |= {of[use] for use in used if use in of} - {of[name]}
    return found


def below(layer, uses):
    """All layers that a layer stands on."""
    return uses[layer] | {low for use in uses[layer] for low in below(use, uses)}


def check_picture():
    text = section("ARCHITECTURE.md", "The layers")
    drawn = {tuple(name.replace("_", " ") for name in arrow) for arrow in re.findall(r"^  (\w+)(?:\[.*?\])? --> (\w+)", text, re.M)}
    dotted = {tuple(name.replace("_", " ") for name in arrow) for arrow in re.findall(r"^  (\w+) -\. \w+ \.-> (\w+)", text, re.M)}
    uses = {layer: used - {low for high, low in dotted if high == layer} for layer, used in uses_of_layers().items()}
    wanted = {(layer, use) for layer in uses for use in uses[layer] if not any(use in below(other, uses) for other in uses[layer] - {use})}
    for high, low in sorted(drawn ^ wanted):
        yield f"the picture {'has' if (high, low) in drawn else 'lacks'} the arrow from {high} to {low}"


def check_shared():
    by_layer = dict(layers())
    heap = {crate for layer in HEAP_LAYERS for crate in by_layer[layer]}
    uses = {name: used for name, _, used in listed()}
    found = {(crate, use) for layer in TEXT_LAYERS for crate in by_layer[layer] for use in uses[crate] if use in heap}
    said = {(crate, use): thing for crate, thing, use in re.findall(r"`(\w+)` names the `(\w+)` of `(\w+)`", section("ARCHITECTURE.md", "The layers"))}
    for crate, use in sorted(found ^ set(said)):
        yield f"{crate} {'uses' if (crate, use) in found else 'does not use'} {use}, and docs/ARCHITECTURE.md says otherwise"
    for (crate, use), thing in said.items():
        named = set()
        for path in glob.glob(os.path.join(TOP, "crates", crate, "src", "**", "*.rt"), recursive=True):
            for names in re.findall(rf"^use {use}::(.*);", open(path, encoding="utf-8").read(), re.M):
                named |= set(re.findall(r"\w+", names))
        if named != {thing}:
            yield f"{crate} names {', '.join(sorted(named)) or 'nothing'} of {use}, and docs/ARCHITECTURE.md says {thing}"


def files_in(cell):
    """How many files a list of them has."""
    in_words = sum(count for words, count in IN_WORDS.items() if words in cell)
    return in_words + len(re.findall(r"\w+\.(?:rt|antt)\b", cell))


def check_touched():
    text = section("ARCHITECTURE.md", "What a change touches")
    said = {row[0]: int(row[1]) for row in rows(text.split("**An instruction.**")[0]) if row[1].isdigit()}
    lists = {
        "an instruction of a family that is there": "**An instruction.**",
        "a claim of a certificate": "**A claim of a certificate**",
        "a step of a thread on a shared word": "**A step of a thread.**",
        "a step of the collector": "**A step of the collector.**",
    }
    for change, head in lists.items():
        listed_here = re.split(r"\n\n(?!\|)", text.split(head)[1].split("\n\n", 1)[1])[0]
        count = sum(files_in(row[1]) for row in rows(listed_here))
        if said.get(change) != count:
            yield f"'{change}' lists {count} files, and the table says {said.get(change)}"
    words = section("ARCHITECTURE.md", "What a change touches")
    if said.get("an instruction of a family that is there") != len(naming("Resize") & naming("Compare") - shared_files()) + 3:
        yield f"{len(naming('Resize') & naming('Compare') - shared_files())} files name both `Resize` and `Compare`, and with the three of a word the table says {said.get('an instruction of a family that is there')}"
    if said.get("one more kind of an operation that is there") != len(naming("Xor")):
        yield f"{len(naming('Xor'))} files name `Xor`, and the table says {said.get('one more kind of an operation that is there')}"
    for head in lists.values():
        for crates, files in [row[:2] for row in rows(re.split(r"\n\n(?!\|)", words.split(head)[1].split("\n\n", 1)[1])[0])]:
            for name in re.findall(r"[\w/]*\w+\.(?:rt|antt)\b", files):
                if not any(path.endswith("/" + name) for path in sources(*re.findall(r"\w+", crates))):
                    yield f"docs/ARCHITECTURE.md: no {name} in {crates}"


def shared_files():
    """The files that only pass names on."""
    return {path for path in naming("NumberOp") if path.endswith("/lib.rt")}


def documents():
    return [os.path.join(TOP, name) for name in ("README.md", "CHANGES.md")] + glob.glob(os.path.join(TOP, "docs", "*.md")) + [os.path.join(HERE, "README.md")]


def anchor(heading):
    """The name by which a link leads to a heading."""
    return re.sub(r"[^\w\- ]", "", heading.lower()).replace(" ", "-")


def check_links():
    for page in documents():
        text = open(page, encoding="utf-8").read()
        for target in re.findall(r"\]\(([^)\s]+)\)", text):
            if "://" in target:
                continue
            path, _, heading = target.partition("#")
            whole = os.path.normpath(os.path.join(os.path.dirname(page), path)) if path else page
            if not os.path.exists(whole):
                yield f"{os.path.relpath(page, TOP)}: no {target}"
            elif heading and whole.endswith(".md"):
                held = re.findall(r"^#+ (.*)$", open(whole, encoding="utf-8").read(), re.M)
                if heading not in map(anchor, held):
                    yield f"{os.path.relpath(page, TOP)}: no heading {target}"


def linked(cell):
    """The files to which the links of a cell lead."""
    return [os.path.normpath(os.path.join(TOP, "docs", target.split("#")[0])) for target in re.findall(r"\]\(([^)\s]+)\)", cell)]


def check_glossary():
    for row in rows(section("GLOSSARY.md", "One name, two things")):
        for path in linked(row[-1]):
            if re.fullmatch(r"`\w+`", row[0]) and row[0] != "`Line`" and os.path.exists(path) and not re.search(rf"\b{row[0].strip('`')}\b", open(path, encoding="utf-8").read()):
                yield f"docs/GLOSSARY.md: {os.path.relpath(path, TOP)} has no {row[0]}"


def check_counts():
    found = {
        "crates": len(listed()),
        "edits": len(glob.glob(os.path.join(TOP, "crates", "*", "must-fail", "*.edit"))),
        "rows": len(read("crates", "dgc_tests", "data", "rows.txt").split()),
    }
    row = [cells for cells in rows(section("ASSURANCE.md", "How large it is")) if len(cells) == 7][0]
    said = dict(zip(("crates", "edits", "rows"), (int(cell.replace(",", "")) for cell in row[4:])))
    for thing, count in found.items():
        if said[thing] != count:
            yield f"docs/ASSURANCE.md: {said[thing]} {thing}, and there are {count}"
    folders = {os.path.basename(path) for path in glob.glob(os.path.join(TOP, "crates", "*")) if os.path.isdir(path)}
    for crate in sorted(folders ^ {name for name, _, _ in listed()}):
        yield f"crates.txt and crates/ differ in {crate}"


def check_version():
    places = {
        "version": {
            "crates/command_line/src/grammar.rt": r'\.version\("([0-9.]+)',
            "crates/dgc_c/src/version.rt": r'"dgc ([^,]+), proved"',
            "CHANGES.md": r"\n## (\S+)",
        },
        "logic": {
            "crates/command_line/src/grammar.rt": r'proved in the logic ([0-9a-f]+)"',
            "README.md": r"with the logic `([0-9a-f]+)`",
            "docs/ASSURANCE.md": r"logic ([0-9a-f]+)`",
        },
        "interface": {
            "crates/dgc_c/src/version.rt": r"INTERFACE: u32 = (\d+)",
            "include/dgc.h": r"DGC_INTERFACE (\d+)",
            "examples/c/make.rs": r"INTERFACE: u32 = (\d+)",
        },
    }
    for thing, files in places.items():
        said = {path: re.search(pattern, read(path))[1] for path, pattern in files.items()}
        if thing == "logic":
            with contextlib.suppress(translation.NoKit):
                said["the kit"] = translation.logic(translation.find_kit())
        if len(set(said.values())) > 1:
            yield f"{thing}: {said}"


def check_page(*words):
    """A check that is a script of its own."""
    def run():
        ran = subprocess.run([sys.executable, os.path.join(HERE, words[0]), *words[1:]], capture_output=True, text=True)
        if ran.returncode:
            yield (ran.stdout + ran.stderr).strip()
    return run


CHECKS = {
    "crates": check_page("crates.py", "--check"), "rules": check_page("rules.py", "--check"), "names": check_page("names.py", "--check"), "examples": check_page("examples.py"), "layers": check_layers, "picture": check_picture,
    "shared": check_shared, "touched": check_touched, "links": check_links, "glossary": check_glossary, "counts": check_counts, "version": check_version,
}


def main():
    parser = argparse.ArgumentParser(description=__doc__.split("\n")[0])
    parser.add_argument("--only", nargs="+", choices=sorted(CHECKS), default=list(CHECKS))
    options = parser.parse_args()
    wrong = 0
    for name in options.only:
        for line in CHECKS[name]():
            print(f"{name}: {line}")
            wrong += 1
    print(f"{len(options.only)} checks, {wrong} wrong")
    sys.exit(wrong > 0)


if __name__ == "__main__":
    main()
