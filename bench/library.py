#!/usr/bin/env python3
"""Tries the library for C (include/dgc.h) on the rows of crates/dgc_tests, and at its limits.

    library.py [--archive FILE] [--only WORD ..] [--every N] [--calls N]

It installs the library from crates/dgc_c/out, where library/proved.py leaves it, into a folder of its own. --archive names another libdgc.a, as that of
library/unproved.py. Then it builds the programs in C of `library`, and does each of these, or with --only those that are named:

    names     the archive defines the calls of dgc.h and no other name, and asks for the names of the C library that WANTED has
    rows      each row of check, make and recheck: the status, the line and the explanation are those of the row, and so are the code and the place
    refused   each Nth request for memory (--every, 7) of each call of a row is refused, alone and with all after it: the answer is `error memory`
              or the same, no memory is kept, a session has a verdict afterwards, and none begins without one
    limits    NULL with the length 0, short rooms, texts of 16 MiB, deep types, how much stack a call takes, two threads, sessions; and the rows
              once more, with a stack of STACK bytes
    time      the processor time of a call on README's example: the middle of nine runs of --calls calls (2,000), and the least call

It prints what is not as it should be, and ends with 1 where there is something. Rows of other options than --explain, --forms and --shapes are
compared where their answer tells that of the library: --workers does not change it, the first line of --all and of --why is it. Rows whose
command line is refused, or whose files are missing, have no texts, and are left out.
"""
import argparse
import collections
import os
import re
import resource
import statistics
import subprocess
import sys
import tempfile

HERE = os.path.dirname(os.path.abspath(__file__))
TOP = os.path.dirname(HERE)
ROWS = f"{TOP}/crates/dgc_tests/data/rows"
SWAP = f"{TOP}/examples/swap"
PARTS = ["names", "rows", "refused", "limits", "time"]
WANTED = {"malloc", "realloc", "free", "memcpy", "memmove", "memset", "memcmp", "bcmp"}
FILES = {"check": 2, "make": 1, "recheck": 3}
WITH_WORD = ("--explain", "--forms", "--limit", "--shapes", "--workers")
NAMES = ("module", "certificate", "edits")
NOWHERE = 2**64 - 1
STACK = 128 << 10
# A row whose module has no layouts and whose edits are none. A session asks for the layouts first, since it begins without edits.
TWO_FAULTS = {"edits_before_the_layouts": b"error Y1 T\n"}
MOST_TOLD = 20

Row = collections.namedtuple("Row", "name command options files status out err")
Answer = collections.namedtuple("Answer", "status letter number function block instruction line column rechecked text explanation")


# ---- rows

def bytes_of(path):
    with open(path, "rb") as file:
        return file.read()


def read_row(name):
    """A row of one of the three commands, if it has texts for it."""
    words = bytes_of(f"{ROWS}/{name}/args").decode().splitlines()
    if not words or words[0] not in FILES:
        return None
    files, options, at = [], {}, 1
    while at < len(words):
        takes = words[at] in WITH_WORD
        if words[at].startswith("--"):
            options[words[at]] = words[at + 1] if takes and at + 1 < len(words) else True
        else:
            files.append(words[at])
        at += 1 + takes
    given = files + ([options["--shapes"]] if "--shapes" in options else [])
    status = int(bytes_of(f"{ROWS}/{name}/status"))
    if status == 4 or "--help" in options or len(files) != FILES[words[0]]:
        return None
    if not all(isinstance(path, str) and os.path.isfile(f"{ROWS}/{name}/{path}") for path in given):
        return None
    return Row(name, words[0], options, files, status, bytes_of(f"{ROWS}/{name}/stdout"), bytes_of(f"{ROWS}/{name}/stderr"))


def line_of(row):
    """The row as a line of the list for rows.c."""
    other = row.options.get("--shapes", "-") if row.command == "make" else row.files[1]
    edits = row.files[2] if row.command == "recheck" else "-"
    paths = [path if path == "-" else f"{ROWS}/{row.name}/{path}" for path in (row.files[0], other, edits)]
    return " ".join([row.name, row.command, str(int(row.options.get("--forms") == "wide")), *paths])


def read_answers(said):
    """The answers that rows.c printed: by row and call."""
    answers, at = {}, 0
    while at < len(said):
        end = said.index(b"\n", at)
        words = said[at:end].decode().split()
        assert words[0] == "==", said[at:end]
        numbers = [int(word) if word.isdigit() else word for word in words[3:]]
        text, explanation = numbers[-2:]
        first, at = end + 1, end + 1 + text + explanation
        answers[words[1], words[2]] = Answer(*numbers[:-2], said[first:first + text], said[first + text:at])
    return answers


# ---- what a row says of them

def first_line(text):
    return text[:text.find(b"\n") + 1]


def is_fault(row):
    """Whether the row's line is on standard error."""
    return row.status > 1


def wanted_text(row):
    """The text of the library's answer, by what the program prints."""
    if row.name in TWO_FAULTS:
        return TWO_FAULTS[row.name]
    if is_fault(row):
        return first_line(row.err)
    if "--why" in row.options or ("--all" in row.options and row.status == 1):
        return first_line(row.out)
    return row.out


def by_names(row, text):
    """An explanation with the library's names of texts in the place of paths."""
    paths = dict(zip(row.files, NAMES))
    if "--shapes" in row.options:
        paths[row.options["--shapes"]] = "shapes"
    for path, name in paths.items():
        text = re.sub(rb"(?<![\w/])" + re.escape(path.encode()) + rb"(?=[: ])", name.encode(), text)
    return text


def wanted_explanation(row):
    """The explanation that the program adds, where the row has it, and the library has a call for it."""
    if row.options.get("--explain") != "always" or row.command == "recheck" or "--all" in row.options or "--why" in row.options:
        return None
    return by_names(row, row.err[len(first_line(row.err)):] if is_fault(row) else row.err)


def is_of_limit_none(row):
    """Whether the row prints no refusal, but how many there are."""
    return "--all" in row.options and row.out.startswith(b"refusals")


def wanted_place(answer):
    """The code, line and column that the text and the explanation name; None where they name none."""
    fault = re.match(rb"error ([A-Z])(\d+)(?: (\d+):(\d+))?", answer.text)
    if fault:
        letter, number, line, column = fault.groups()
        return ord(letter), int(number), int(line or 0), int(column or 0)
    refusal = re.match(rb"no .* (K)(\d+)(?: |$)", answer.text.split(b"\n")[0])
    if refusal:
        at = re.match(rb"module:(\d+):(\d+): ", answer.explanation)
        return ord(refusal[1]), int(refusal[2]), *((int(at[1]), int(at[2])) if at else (answer.line, answer.column))
    return None


def faults_of(row, answers):
    """What of the library's answer is not the row's."""
    last = answers.get((row.name, "apply")) or answers.get((row.name, "open")) or answers[row.name, row.command]
    text = last.text
    if row.command == "recheck" and (row.name, "apply") in answers and last.status <= 1:
        text = answers[row.name, "open"].text + last.text
    if last.status != row.status:
        yield f"status {last.status} and not {row.status}"
    if text != wanted_text(row) and not is_of_limit_none(row):
        yield f"{text!r} and not {wanted_text(row)!r}"
    wanted = wanted_explanation(row)
    if wanted is not None and last.explanation != wanted:
        yield f"explanation {last.explanation!r} and not {wanted!r}"
    place = wanted_place(last)
    if row.command != "recheck" and place and (last.letter, last.number, last.line, last.column) != place:
        yield f"place {chr(last.letter)}{last.number} {last.line}:{last.column} of {last.text!r}"
    if last.status != 1 and last.function != NOWHERE:
        yield f"function {last.function} of {last.text!r}"
    if row.command == "check" and last.status == 1 and str(last.instruction).encode() not in last.text.split():
        yield f"instruction {last.instruction} of {last.text!r}"


# ---- parts

def run(words, **more):
    return subprocess.run(words, stdout=subprocess.PIPE, stdin=subprocess.DEVNULL, **more)


def try_names(built):
    """The names that the archive defines and asks for."""
    sys.path.insert(0, f"{TOP}/library")
    import archive

    lines = [line.split() for line in run(["nm", "-g", built.archive], text=True, check=True).stdout.splitlines()]
    defined = {words[-1] for words in lines if len(words) == 3}
    asked = {words[-1] for words in lines if len(words) == 2 and words[0] == "U"}
    print(f"names: {len(defined)} defined, asked for: {' '.join(sorted(asked))}")
    for name in sorted(defined ^ set(archive.calls())):
        yield f"{name} is in the archive or in dgc.h alone"
    for name in sorted(asked - WANTED):
        yield f"{name} is asked for"


def try_rows(built):
    """The rows of the three commands."""
    answers = read_answers(run([built.rows, built.list], check=True).stdout)
    same = 0
    for row in built.all_rows:
        faults = list(faults_of(row, answers))
        same += not faults
        for fault in faults:
            yield f"{row.name}: {fault}"
    counts = collections.Counter(row.command for row in built.all_rows)
    told = sum(wanted_explanation(row) is not None for row in built.all_rows)
    print(f"rows: {same} of {len(built.all_rows)} are answered as the program answers them ({', '.join(f'{n} of {c}' for c, n in sorted(counts.items()))}; {told} explained)")


def try_refused(built):
    """The rows with requests for memory refused."""
    said = run([built.rows, built.list, "refuse", str(built.every)], text=True)
    *wrong, count = said.stdout.splitlines() or [""]
    print(f"refused: {count}")
    yield from wrong
    if said.returncode not in (0, 1):
        yield f"rows.c ended with {said.returncode}"


def try_limits(built):
    """The limits that dgc.h names."""
    said = run([built.limits, f"{SWAP}/barrier.ll", f"{SWAP}/plain.ll", f"{SWAP}/swap.cert"], text=True)
    lines = said.stdout.splitlines()
    print("\n".join(f"limits: {line}" for line in lines if not line.startswith("WRONG")))
    yield from (line for line in lines if line.startswith("WRONG"))
    if said.returncode not in (0, 1):
        yield f"limits.c ended with {said.returncode}"
    small = run([built.rows, built.list], preexec_fn=lambda: resource.setrlimit(resource.RLIMIT_STACK, (STACK, STACK)))
    if small.stdout != run([built.rows, built.list]).stdout:
        yield f"the rows are answered otherwise with {STACK >> 10} KiB of stack"
    print(f"limits: ok    {len(built.all_rows)} rows with {STACK >> 10} KiB of stack")


def try_time(built):
    """The time of a call on README's example, accepted and refused."""
    for name in ("barrier.ll", "plain.ll"):
        took = [run([built.limits, "time", f"{SWAP}/{name}", f"{SWAP}/swap.cert", str(built.calls)], text=True, check=True).stdout.split() for _ in range(9)]
        middle, least = statistics.median(float(words[0]) for words in took), min(float(words[1]) for words in took)
        print(f"time: {name} {middle:.3f} ms a call, {least:.3f} ms the least")
        if middle > 0.15:
            yield f"a call on {name} takes {middle:.3f} ms"


def build(options, folder):
    """Installs the library, and compiles the programs in C."""
    words = [sys.executable, f"{TOP}/library/install.py", f"{folder}/prefix"]
    subprocess.run(words + (["--archive", options.archive] if options.archive else []), check=True, stdout=subprocess.DEVNULL)
    options.archive = f"{folder}/prefix/lib/libdgc.a"
    flags = ["-std=c11", "-O2", "-Wall", "-Wextra", "-Werror", f"-I{folder}/prefix/include"]
    for name, links in (("rows", [f"-Wl,--wrap={word}" for word in ("malloc", "realloc", "free")]), ("limits", ["-pthread"])):
        program = f"{folder}/{name}"
        subprocess.run([os.environ.get("CC", "cc"), *flags, f"{HERE}/library/{name}.c", options.archive, *links, "-o", program], check=True)
        setattr(options, name, program)
    options.all_rows = [row for row in map(read_row, sorted(os.listdir(ROWS))) if row]
    options.list = f"{folder}/list"
    with open(options.list, "w") as file:
        file.write("".join(line_of(row) + "\n" for row in options.all_rows))


def main():
    parser = argparse.ArgumentParser(description=__doc__.split("\n")[0])
    parser.add_argument("--archive", help="a libdgc.a, in place of that which library/proved.py leaves")
    parser.add_argument("--only", nargs="+", choices=PARTS, default=PARTS)
    parser.add_argument("--every", type=int, default=7, help="refuse every Nth request")
    parser.add_argument("--calls", type=int, default=2000, help="calls of a run that is timed")
    options = parser.parse_args()
    tries = dict(zip(PARTS, (try_names, try_rows, try_refused, try_limits, try_time)))
    wrong = 0
    with tempfile.TemporaryDirectory() as folder:
        build(options, folder)
        for part in options.only:
            for fault in tries[part](options):
                wrong += 1
                if wrong <= MOST_TOLD:
                    print(f"WRONG {part}: {fault}")
    print(f"{wrong} wrong")
    sys.exit(wrong > 0)


if __name__ == "__main__":
    main()
