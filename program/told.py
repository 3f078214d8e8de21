"""What the program tells of itself: its version, its help, that of each command, and the codes that it explains."""
import collections
import re
import subprocess

Option = collections.namedtuple("Option", "short long value text")
Row = collections.namedtuple("Row", "name text")
Help = collections.namedtuple("Help", "about usage commands arguments options paragraphs statuses")
Told = collections.namedtuple("Told", "version top helps codes")

# How a row of each list begins. A line that begins otherwise goes on with the row above it.
ROWS = {
    "Commands:": r"  ([\w-]+)  +(.*)",
    "Arguments:": r"  [<\[](\w+)[>\]]  +(.*)",
    "Options:": r"  (?:(-\w), |    )(--[\w-]+)(?: <(\w+)>)?  +(.*)",
    "Exit status:": r"  (\d)  (.*)",
}
# What may be given as the value of an option, by its name in the help. One letter is a number, and FILE a path.
WORDS = {"WHEN": ("always", "auto", "never"), "FORMS": ("core", "wide")}


def said(program, *words):
    """What the program prints on standard output."""
    return subprocess.run([program, *words], capture_output=True, text=True, check=True, stdin=subprocess.DEVNULL).stdout


def listed(head, lines):
    """The rows of a list. The last part of a row is its text."""
    found = []
    for line in lines:
        row = re.fullmatch(ROWS[head], line)
        if row:
            found.append(list(row.groups()))
        elif found and line.startswith("    "):
            found[-1][-1] += " " + line.strip()
        else:
            raise ValueError(f"the help has a line of another form: {line}")
    return [Option(*row) if head == "Options:" else Row(*row) for row in found]


def parted(text):
    """A help text in its parts: lists by their heads, and paragraphs, each in one line."""
    lists, paragraphs, usage = dict.fromkeys(ROWS, ()), [], ""
    for block in text.rstrip("\n").split("\n\n"):
        head, *lines = block.split("\n")
        if head in ROWS:
            lists[head] = listed(head, lines)
        elif head.startswith("Usage: "):
            usage = " ".join(block.split()[2:])
        else:
            paragraphs.append(" ".join(line.strip() for line in block.split("\n")))
    commands, arguments, options, statuses = lists.values()
    return Help(paragraphs[0], usage, commands, arguments, options, paragraphs[1:], statuses)


def told_by(program):
    """What a program tells of itself. The helps are those of its commands, by their names, without `help`."""
    top = parted(said(program, "--help"))
    helps = {command.name: parted(said(program, command.name, "--help")) for command in top.commands if command.name != "help"}
    codes = re.findall(r"^ +([A-Z]\d+) ", said(program, "explain"), re.M)
    return Told(said(program, "--version").split()[1], top, helps, codes)
