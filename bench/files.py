#!/usr/bin/env python3
"""Gives `dgc` files that are none, files past their limits, and outputs that take nothing, and looks at what comes of it.

    files.py DGC [--only WORD ..] [--large]

Each case has a line: what was given, and `as wanted` or what is not. A file that cannot be read has to end each command with
`error file PATH` and status 4, at each place of its line; an output that takes nothing, with `error output` and status 4. A text on the
standard input has to be answered as from a file where it ends in the line `; end`, and to be `error file -` otherwise. No run may
end by a signal or take longer than a few seconds. With --large also files of 1 GiB and of one byte more, which take about 2 GB
of memory. A file without permission is opened by another user, so that case is left out where this one is not root. Ends with status 1
where a case is not as wanted. For use by hand.
"""
import argparse
import os
import shutil
import subprocess
import sys
import tempfile
import time

HERE = os.path.dirname(os.path.abspath(__file__))
SWAP = os.path.join(HERE, "..", "examples", "swap", "typed")
TEXT_LIMIT, FILE_LIMIT = 16777216, 1 << 30
NOBODY = 65534
MOST_SECONDS = 120
# each command; what has a point is a file, the first one a module
COMMANDS = {
    "check": "check barrier.ll swap.cert",
    "make": "make barrier.ll",
    "make, shapes": "make opaque.ll --shapes swap.shapes",
    "recheck": "recheck barrier.ll swap.cert none.edits",
    "replay": "replay barrier.ll two.trace",
    "replay, shapes": "replay opaque.ll two.trace --shapes swap.shapes",
    "soak": "soak barrier.ll two.trace --seeds 2 --steps 20",
    "soak, shapes": "soak opaque.ll two.trace --shapes swap.shapes --seeds 2 --steps 20",
    "hunt": "hunt barrier.ll --seeds 2 --steps 20",
    "hunt, certificate": "hunt barrier.ll --cert swap.cert --seeds 2 --steps 20",
    "run": "run barrier.ll swap.cert two.trace --steps 5 --turns 5",
    "watch": "watch barrier.ll two.trace --steps 5 --turns 0",
    "watch, shapes": "watch opaque.ll two.trace --shapes swap.shapes --steps 5 --turns 0",
    "migrate": "migrate barrier.ll",
    "migrate, certificate": "migrate barrier.ll swap.cert",
    "lower, certificate": "lower barrier.ll swap.cert",
}
# commands that write a file, whose name is the last word
SAVES = {
    "replay, JSON": "replay barrier.ll two.trace --json saved",
    "replay, record": "replay barrier.ll two.trace --record saved",
    "hunt, saved": "hunt kept.ll --seeds 64 --steps 200 --tries 9 --save saved",
    "soak, saved": "soak kept.ll kept.trace --seeds 60 --steps 45 --save saved",
}
KEPT = os.path.join(HERE, "..", "crates", "dgc_tests", "data", "rows", "register_kept_for_ever")


def file_places(line):
    """The places of the files among the words of a line."""
    return [place for place, word in enumerate(line.split()) if "." in word]


def with_file(line, place, path):
    """The words of a line with another file at this place."""
    words = line.split()
    return [*words[:place], path, *words[place + 1:]]


class Ended:
    """How a run ended: its status (below 0 for a signal), what it printed, its time and its memory."""

    def __init__(self, words, **streams):
        start = time.monotonic()
        with tempfile.TemporaryFile() as out, tempfile.TemporaryFile() as err:
            child = subprocess.Popen(words, **{"stdin": subprocess.DEVNULL, "stdout": out, "stderr": err, **streams})
            try:
                self.status = child.wait(timeout=MOST_SECONDS)
            except subprocess.TimeoutExpired:
                child.kill()
                child.wait()
                self.status = f"{MOST_SECONDS} s"
            self.seconds = time.monotonic() - start
            self.stdout, self.stderr = (os.pread(file.fileno(), 1 << 20, 0) for file in (out, err))

    def __str__(self):
        return f"status {self.status}, {self.stdout[:60]!r}, {self.stderr[:60]!r}, {self.seconds:.1f} s"


class Cases:
    """Runs cases in a folder, and counts those that are not as wanted."""

    def __init__(self, dgc, folder, only):
        self.dgc, self.folder, self.only = dgc, folder, only
        self.made, self.wrong = 0, 0
        os.chdir(folder)

    def look(self, told, words, wanted, most_seconds=5.0, before=(), **streams):
        """Runs DGC with these words, which has to end with this status, and with these texts if they are given."""
        if not any(word in told for word in self.only):
            return
        self.made += 1
        ended = Ended([*before, self.dgc, *words], **streams)
        status, *texts = wanted
        alike = ended.status == status and ended.seconds < most_seconds
        alike = alike and all(text is None or text == said for text, said in zip(texts, (ended.stdout, ended.stderr)))
        self.wrong += not alike
        print(f"{told}: {'as wanted' if alike else ended}", flush=True)

    def tell(self, told, alike, ended):
        """Counts a case that was looked at."""
        if any(word in told for word in self.only):
            self.made += 1
            self.wrong += not alike
            print(f"{told}: {'as wanted' if alike else ended}", flush=True)

    def at_each_place(self, told, path, before=(), **streams):
        """Puts this path in the place of each file of each command; it cannot be read."""
        shown = b"error file " + os.fsencode(path) + b"\n"
        for command, line in COMMANDS.items():
            for place in file_places(line):
                self.look(f"{told}: {command}, word {place}", with_file(line, place, path), (4, b"", shown), before=before, **streams)


def write_files(folder):
    """Writes the files of the commands, and those that cannot be read."""
    for name in ("barrier.ll", "plain.ll", "swap.cert", "two.trace"):
        shutil.copy(os.path.join(SWAP, name), folder)
    for name, there in (("opaque.ll", "../barrier.ll"), ("swap.shapes", "../swap.shapes")):
        shutil.copy(os.path.join(SWAP, there), os.path.join(folder, name))
    for end in ("ll", "trace"):
        shutil.copy(os.path.join(KEPT, f"module.{end}"), os.path.join(folder, f"kept.{end}"))
    with open("none.edits", "w"):
        pass
    os.mkdir("folder")
    os.mkfifo("fifo")
    shutil.copy("barrier.ll", "closed.ll")
    os.chmod("closed.ll", 0)
    os.symlink("ring", "ring")
    for name, size in (("text.ll", TEXT_LIMIT), ("long.ll", TEXT_LIMIT + 1), ("huge.ll", 1 << 40), ("file", FILE_LIMIT), ("long", FILE_LIMIT + 1)):
        with open(name, "wb") as out:
            out.truncate(size)
    with open("spaces.ll", "wb") as out:
        out.write(b" " * TEXT_LIMIT)
    with open("spaces_more.ll", "wb") as out:
        out.write(b" " * (TEXT_LIMIT + 1))
    with open("empty.cert", "w") as out:
        out.write("cert 1\n")


def unread_files(cases):
    """Files that cannot be read."""
    cases.at_each_place("no file", "missing")
    cases.at_each_place("no folder", "missing/file")
    cases.at_each_place("no name", "")
    cases.at_each_place("a name that is too long", "a" * 5000)
    cases.at_each_place("a link to itself", "ring")
    cases.at_each_place("a folder", "folder")
    cases.at_each_place("a fifo", "fifo")
    cases.at_each_place("a file in a file", "barrier.ll/file")
    if os.getuid() == 0:
        cases.at_each_place("no permission", "closed.ll", user=NOBODY)
    library = os.path.join(cases.folder, "shorten.so")
    subprocess.run(["cc", "-O2", "-shared", "-fPIC", "-o", library, os.path.join(HERE, "shorten.c"), "-ldl"], check=True)
    for command, line in COMMANDS.items():
        for place in file_places(line):
            with open("shrinks", "wb") as out:
                out.write(b"; a comment\n" * 100000)
            cases.look(f"a file that shrinks: {command}, word {place}", with_file(line, place, "shrinks"), (4, b"", b"error file shrinks\n"),
                       env={**os.environ, "LD_PRELOAD": library, "SHORTEN": "shrinks"})


def piped(cases, told, words, text, wanted, **streams):
    """Runs DGC with a pipe as its standard input, to which this text is written."""
    writer = subprocess.Popen([sys.executable, "-c", "import os, sys; os.write(1, sys.stdin.buffer.read())"], stdin=subprocess.PIPE, stdout=subprocess.PIPE)
    writer.stdin.write(text)
    writer.stdin.close()
    cases.look(told, words, wanted, stdin=writer.stdout, **streams)
    writer.stdout.close()
    writer.wait()


def inputs(cases):
    """Texts on the standard input, whole ones and ones that were cut off."""
    for command, line in COMMANDS.items():
        wanted = Ended([cases.dgc, *line.split()])
        for place in file_places(line):
            with open(line.split()[place], "rb") as file:
                text = file.read()
            words = with_file(line, place, "-")
            answer = (wanted.status, None if line.startswith(("soak", "run")) else wanted.stdout, wanted.stderr)
            piped(cases, f"the standard input: {command}, word {place}", words, text + b"; end\n", answer)
            for told, cut in {"no last line": text, "half a last line": text + b"; en", "nothing": b"", "more": text + b"; end\n\n"}.items():
                piped(cases, f"the standard input, {told}: {command}, word {place}", words, cut, (4, b"", b"error file -\n"))
    piped(cases, "a list on the standard input", ["check-list", "-"], b"barrier.ll swap.cert\n; end\n", (0, b"barrier.ll\tyes 1\n", b""))
    piped(cases, "a list that is cut off", ["check-list", "-"], b"barrier.ll swap.cert\n", (4, b"", b"error file -\n"))
    for words, path in ((["check", "fifo", "swap.cert"], b"fifo"), (["check", "missing", "swap.cert"], b"missing"), (["check", "folder", "swap.cert"], b"folder")):
        begins = b"error file " + path + b"\n" + path + b": "
        ended = Ended([cases.dgc, *words, "--explain", "always"])
        cases.tell(f"explained: {path.decode()}", ended.status == 4 and ended.stderr.startswith(begins) and b"mend:" in ended.stderr, ended)


def settings(cases):
    """The variable DGC_EXPLAIN."""
    words = ["check", "plain.ll", "swap.cert"]
    plain = Ended([cases.dgc, *words])
    told = Ended([cases.dgc, *words, "--explain", "always"])
    wrong = b"error: DGC_EXPLAIN takes always, auto or never\n"
    for value, wanted in {"": plain, "auto": plain, "never": plain, "always": told}.items():
        cases.look(f"DGC_EXPLAIN is {value!r}", words, (1, wanted.stdout, wanted.stderr), env={**os.environ, "DGC_EXPLAIN": value})
    cases.look("DGC_EXPLAIN is another word", words, (4, b"", wrong), env={**os.environ, "DGC_EXPLAIN": "yes"})
    cases.look("DGC_EXPLAIN is no UTF-8", words, (4, b"", wrong), env={**os.environb, b"DGC_EXPLAIN": b"\xff"})
    cases.look("the line goes before DGC_EXPLAIN", [*words, "--explain", "never"], (1, plain.stdout, plain.stderr), env={**os.environ, "DGC_EXPLAIN": "yes"})


def words_that_are_no_text(cases):
    """Words of the command line that are not UTF-8."""
    refused = b"error: the command line is not UTF-8\n"
    for command, line in COMMANDS.items():
        for place in file_places(line):
            cases.look(f"a name that is not UTF-8: {command}, word {place}", with_file(line, place, b"\xff.ll"), (4, b"", refused))
    for command, line in SAVES.items():
        cases.look(f"a name that is not UTF-8: {command}", [*line.split()[:-1], b"\xff"], (4, b"", refused))
    cases.look("a command that is not UTF-8", [b"\xc3\x28"], (4, b"", refused))


def limits(cases, is_large):
    """Files of the size of a limit, and past it. A text without end is refused at once, in 40 MB."""
    within = ["prlimit", f"--data={40 << 20}"]
    for command, line in COMMANDS.items():
        words = with_file(line, file_places(line)[0], "/dev/zero")
        cases.look(f"a device without end: {command}", words, (2, b"", b"error L8 1:16777217\n"), 2.0, within)
    for name in ("long.ll", "huge.ll", "spaces_more.ll"):
        cases.look(f"a text past its limit: {name}", ["check", name, "swap.cert"], (2, b"", b"error L8 1:16777217\n"), 2.0, within)
    cases.look("a text of the limit", ["check", "text.ll", "swap.cert"], (2, b"", b"error L1 1:1\n"))
    cases.look("blanks up to the limit", ["check", "spaces.ll", "empty.cert"], (0, b"yes 0\n", b""))
    cases.look("an empty device", ["check", "/dev/null", "empty.cert"], (0, b"yes 0\n", b""))
    if is_large:
        cases.look("a certificate of 1 GiB", ["check", "barrier.ll", "file"], (2, b"", b"error C1 1:1\n"), MOST_SECONDS)
        for command, line in COMMANDS.items():
            for place in file_places(line)[1:]:
                for path in ("long", "/dev/zero"):
                    shown = b"error file %s\n" % path.encode()
                    cases.look(f"past 1 GiB, {path}: {command}, word {place}", with_file(line, place, path), (4, b"", shown), MOST_SECONDS)


def outputs(cases):
    """Outputs that take nothing: closed ones, a full disk, and pipes that nobody reads."""
    said = {command: line.split() for command, line in {**COMMANDS, **SAVES}.items()}
    said |= {"help": ["--help"], "help of check": ["check", "--help"], "version": ["--version"]}
    said |= {"explain": ["explain"], "explain K6": ["explain", "K6"]}
    said |= {"replay, its steps": [*COMMANDS["replay"].split(), "--steps"], "check, all": ["check", "plain.ll", "swap.cert", "--all"]}
    broken = (4, None, b"error output\n")
    for name, words in said.items():
        closed = [sys.executable, "-c", "import os, sys; os.close(1); os.execv(sys.argv[1], sys.argv[1:])"]
        cases.look(f"a closed output: {name}", words, broken, before=closed)
        with open("/dev/full", "wb") as full:
            cases.look(f"a full disk: {name}", words, broken, stdout=full)
        reader, writer = os.pipe()
        os.close(reader)
        cases.look(f"a pipe that nobody reads: {name}", words, broken, stdout=writer)
        os.close(writer)
    errors(cases)
    saves(cases)
    overwritten(cases)


def saves(cases):
    """Files that cannot be written. What was printed before that is no answer: the status is 4."""
    broken = (4, None, b"error output\n")
    for command, line in SAVES.items():
        unwritten = {"a folder": "folder", "no folder": "missing/file", "a full disk": "/dev/full", "a file in a file": "barrier.ll/file", "no name": ""}
        for told, path in unwritten.items():
            cases.look(f"a file to write, {told}: {command}", [*line.split()[:-1], path], broken)
        if os.getuid() == 0:
            cases.look(f"a file to write, no permission: {command}", [*line.split()[:-1], "closed.ll"], broken, user=NOBODY)


def overwritten(cases):
    """Files to write that are also read, under the same name and under others. They stay as they are."""
    refused = (4, b"", b"error: the file that is to be written is one of those that are read\n")
    for command, line in SAVES.items():
        for place in file_places(line):
            path = line.split()[place]
            os.symlink(path, "link")
            os.link(path, "twin")
            with open(path, "rb") as file:
                text = file.read()
            for told, saved in {"its name": path, "a longer name": f"./{path}", "a link": "link", "a hard link": "twin"}.items():
                cases.look(f"a file to write that is read, by {told}: {command}, word {place}", [*line.split()[:-1], saved], refused)
            with open(path, "rb") as file:
                words = [*with_file(line, place, "-")[:-1], path]
                cases.look(f"a file to write that is the standard input: {command}, word {place}", words, refused, stdin=file)
            with open(path, "rb") as file:
                cases.tell(f"kept: {command}, word {place}", file.read() == text, "it was changed")
            os.unlink("link")
            os.unlink("twin")


def errors(cases):
    """A standard error that takes nothing: the status says what there is to say."""
    both = {"a fault of a text": (["check", "two.trace", "swap.cert"], 4), "no command": (["chek"], 4), "no words": ([], 4),
            "no file": (["check", "missing", "swap.cert"], 4), "no UTF-8": ([b"\xff"], 4)}
    for name, (words, status) in both.items():
        reader, writer = os.pipe()
        os.close(reader)
        cases.look(f"errors that nobody reads: {name}", words, (status, b""), stderr=writer)
        os.close(writer)
        with open("/dev/full", "wb") as full:
            cases.look(f"errors to a full disk: {name}", words, (status, b""), stderr=full)
    closed = [sys.executable, "-c", "import os, sys; os.close(2); os.execv(sys.argv[1], sys.argv[1:])"]
    cases.look("closed errors, and yes", COMMANDS["check"].split(), (0, b"yes 1\n"), before=closed)
    for command in ("check plain.ll swap.cert", "make --why plain.ll"):
        with open("/dev/full", "wb") as full:
            cases.look(f"an explanation to a full disk: {command}", [*command.split(), "--explain", "always"], (4, None), stderr=full)
    cases.look("closed errors, and no file", ["check", "missing", "swap.cert"], (4, b""), before=closed)


def main():
    parser = argparse.ArgumentParser(description=__doc__.split("\n")[0])
    parser.add_argument("dgc")
    parser.add_argument("--only", nargs="+", default=[""])
    parser.add_argument("--large", action="store_true")
    options = parser.parse_args()
    dgc = os.path.abspath(options.dgc)
    with tempfile.TemporaryDirectory() as folder:
        os.chmod(folder, 0o755)
        cases = Cases(shutil.copy(dgc, folder), folder, options.only)
        write_files(folder)
        unread_files(cases)
        inputs(cases)
        settings(cases)
        words_that_are_no_text(cases)
        limits(cases, options.large)
        outputs(cases)
        os.chdir(HERE)
    print(f"{cases.made} cases, {cases.wrong} not as wanted")
    sys.exit(1 if cases.wrong else 0)


if __name__ == "__main__":
    main()
