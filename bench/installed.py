#!/usr/bin/env python3
"""Tries what program/install.py installs of a built dgc: the program, its manual page, and the completions of three shells.

    installed.py DGC [--only WORD ..]

It does each of these, or with --only those that are named:

    bash       bash offers each command, each option of each command, each value and each code
    zsh        zsh reads its file, and each command and option is a word that the file gives to zsh
    fish       fish offers the same
    man        mandoc finds no fault in the page but that it has no date, and the page that `man` shows has each command and option
    values     the program takes each value that is offered, and no option has a value of another kind
    leaves     what is installed is removed again, with the folders that were made, and nothing else
    refuses    it refuses without a kit, without a proved program, where a file of another stands, and by a list that leads elsewhere
    fails      a run that fails or is stopped leaves nothing

What has to be offered is read from what DGC prints by --help, line by line, and not by program/told.py. A shell that is missing is
left out, and said so (Debian: zsh fish man-db mandoc). Ends with 1 where something is not as it should be.
"""
import argparse
import os
import re
import shutil
import signal
import subprocess
import sys
import tempfile
import time

TOP = os.path.dirname(os.path.dirname(os.path.abspath(__file__)))
INSTALL = [sys.executable, os.path.join(TOP, "program", "install.py")]
FILES = ["bin/dgc", "share/man/man1/dgc.1", "share/bash-completion/completions/dgc", "share/zsh/site-functions/_dgc",
         "share/fish/vendor_completions.d/dgc.fish", "share/dgc/installed"]
VALUES = {"WHEN": ["always", "auto", "never"], "FORMS": ["core", "wide"]}
KINDS = re.compile(r"[A-Z]|FILE|" + "|".join(VALUES))
BASH = 'source "$1"; shift; COMP_WORDS=("$@"); COMP_CWORD=$(($# - 1)); _dgc; printf "%s\\n" "${COMPREPLY[@]}"'
# Stands for the functions of zsh: each prints the words that it is given. `state` and `line` are as zsh leaves them.
ZSH = """_arguments() { print -rl -- "$@"; state=argument; line=($wanted) }
_describe() { local -a named; named=(${(P)2}); print -rl -- $named }
wanted=$2; source $1"""
ZSH_COMMANDS = """_arguments() { state=command }
_describe() { local -a named; named=(${(P)2}); print -rl -- $named }
source $1"""


def ran(words, **how):
    return subprocess.run(words, capture_output=True, text=True, stdin=subprocess.DEVNULL, **how)


# ---- what the program says

def lines_under(text, head):
    return text.split(f"\n{head}\n", 1)[1].split("\n\n")[0].split("\n") if f"\n{head}\n" in text else []


def options_in(text):
    """The options of a help: each with its short form and the name of its value, where it has them."""
    found = {}
    for line in lines_under(text, "Options:"):
        option = re.match(r" *(?:(-\w), )?(--[\w-]+)(?: <(\w+)>)?", line)
        if option and option[2]:
            found[option[2]] = (option[1], option[3])
    return found


class Said:
    """The commands of a program with their options, and the codes that it explains."""

    def __init__(self, program):
        self.program = program
        help = ran([program, "--help"]).stdout
        self.commands = [line.split()[0] for line in lines_under(help, "Commands:")]
        self.options = {"": options_in(help)}
        for name in self.commands:
            if name != "help":
                self.options[name] = options_in(ran([program, name, "--help"]).stdout)
        self.codes = [line.split()[0] for line in ran([program, "explain"]).stdout.split("\n") if re.match(r" +[A-Z]\d+ ", line)]
        if len(self.commands) < 2 or not self.codes or not all(self.options.values()):
            sys.exit("installed.py: the help of the program is not read: has its form changed?")


# ---- the shells

def missing(offered, wanted, where):
    for word in wanted:
        if word not in offered:
            yield f"{where}: {word} is not offered"


def check_offers(said, offer):
    """Compares what a shell offers after some words with what the program says."""
    yield from missing(offer([], ""), said.commands, "dgc")
    yield from missing(offer([], "-"), said.options[""], "dgc -")
    yield from missing(offer(["help"], ""), said.commands, "dgc help")
    yield from missing(offer(["explain"], ""), said.codes, "dgc explain")
    for command in said.options:
        if command:
            yield from missing(offer([command], "-"), said.options[command], f"dgc {command} -")
        for option, (_, value) in said.options[command].items():
            if value in VALUES:
                offered = offer([command, option], "")
                if sorted(offered) != VALUES[value]:
                    yield f"dgc {command} {option}: offered is {' '.join(offered)}"
            elif value and value != "FILE" and offer([command, option], ""):
                yield f"dgc {command} {option}: something is offered in place of a number"
    for words, at in ((["check"], "--exp"), (["mi"], "mi")):
        offered = offer(words if at != "mi" else [], at)
        if offered != [{"--exp": "--explain", "mi": "migrate"}[at]]:
            yield f"dgc {' '.join(words)} {at}: offered is {' '.join(offered)}"


def check_bash(said, prefix):
    file = os.path.join(prefix, FILES[2])

    def offer(words, last):
        return ran(["bash", "--norc", "-c", BASH, "bash", file, "dgc", *words, last]).stdout.split()

    yield from check_offers(said, offer)
    # Bash takes `=` as a word of its own.
    if sorted(offer(["check", "--explain"], "=")) != VALUES["WHEN"] or offer(["check", "--explain", "="], "al") != ["always"]:
        yield "dgc check --explain=: the values are not offered"
    named = ran(["bash", "--norc", "-c", 'source "$1"; complete -p dgc', "bash", file]).stdout
    if "-o default" not in named or offer(["check"], "x"):
        yield "dgc check x: bash does not complete the name of a file itself"


def check_zsh(said, prefix):
    file = os.path.join(prefix, FILES[3])
    if ran(["zsh", "-n", file]).returncode:
        yield "zsh does not read its file"
    names = ran(["zsh", "-f", "-c", ZSH_COMMANDS, "zsh", file]).stdout.split("\n")
    yield from missing([name.split(":")[0] for name in names], said.commands, "dgc")
    for command, options in said.options.items():
        given = ran(["zsh", "-f", "-c", ZSH, "zsh", file, command]).stdout.split("\n")
        own = [re.split(r"=?\[", word)[0] for word in given if word.startswith("-")]
        yield from missing(own, [*options, *[short for short, _ in options.values() if short]], f"dgc {command}")
        for option, (_, value) in options.items():
            after = [word.rsplit("]", 1)[1] for word in given if word.startswith(f"{option}=[")]
            wanted = f":{value}:" + (f"({' '.join(VALUES[value])})" if value in VALUES else "_files" if value == "FILE" else "")
            if value and after != [wanted]:
                yield f"dgc {command} {option}: zsh is given {after}, and not {wanted}"
        if command == "explain" and not any(word.startswith("1:CODE:(") and word.endswith(")") and said.codes == word[8:-1].split() for word in given):
            yield "dgc explain: zsh is not given the codes"


def check_fish(said, prefix):
    file = os.path.join(prefix, FILES[4])
    if ran(["fish", "--no-config", "--no-execute", file]).returncode:
        yield "fish does not read its file"

    def offer(words, last):
        line = " ".join(["dgc", *words, last])
        answers = ran(["fish", "--no-config", "-c", 'source $argv[1]; complete -C $argv[2]', file, line], cwd=prefix).stdout
        return [answer.split("\t")[0] for answer in answers.split("\n") if answer]

    yield from check_offers(said, offer)
    if not any(word.startswith("bin/") for word in offer(["check"], "bi")):
        yield "dgc check bi: fish does not complete the name of a file"


def check_man(said, prefix):
    page = os.path.join(prefix, FILES[1])
    for line in ran(["mandoc", "-T", "lint", page]).stdout.split("\n"):
        if line and "missing date" not in line:
            yield line
    shown = ran(["mandoc", "-T", "ascii", page]).stdout
    shown = re.sub(r".\x08", "", shown)
    parts = dict(re.findall(r"^   dgc ([\w-]+)\n(.*?)(?=^   \w|^\w|\Z)", shown, re.M | re.S))
    yield from missing(parts, said.commands, "the page")
    for command, options in said.options.items():
        text = parts.get(command, "") if command else shown.split("\nCOMMANDS\n")[0]
        for option, (short, value) in options.items():
            row = (f"{short}, " if short else "") + option + (f" {value}" if value else "")
            if not re.search(rf"^ +{re.escape(row)}( |$)", text, re.M):
                yield f"the page: dgc {command} has no {row}"
    for line in ran(["man", "--warnings", "-l", page]).stderr.split("\n") if shutil.which("man") else ():
        if line:
            yield line


def check_values(said, prefix):
    for command, options in said.options.items():
        for option, (_, value) in options.items():
            if value and not KINDS.fullmatch(value):
                yield f"dgc {command} {option}: a value of the kind {value} is not known to program/told.py"
    for option, words in (("--explain", VALUES["WHEN"]), ("--forms", VALUES["FORMS"])):
        for word in words:
            answer = ran([said.program, "make", "no such file", option, word])
            if answer.stderr.split("\n")[0] != "error file no such file":
                yield f"dgc make {option} {word}: {answer.stderr}"
        if ran([said.program, "make", "no such file", option, "other"]).stderr.startswith("error file no such file\n"):
            yield f"dgc make {option} other: it is taken"


# ---- the script

def tree(folder):
    return sorted(os.path.relpath(os.path.join(at, name), folder) for at, folders, files in os.walk(folder) for name in folders + files)


def check_leaves(said, prefix):
    with tempfile.TemporaryDirectory() as room:
        for standing in ([], ["share/man/man1/other.1"], ["share/zsh/site-functions/"]):
            to = os.path.join(room, str(len(standing)), "a", "b")
            for path in standing:
                os.makedirs(os.path.dirname(os.path.join(to, path)), exist_ok=True)
                if not path.endswith("/"):
                    open(os.path.join(to, path), "w").close()
            before = tree(room)
            for _ in range(2):
                answer = ran([*INSTALL, "--prefix", to, "--program", said.program])
                if answer.returncode or [path for path in FILES if not os.path.isfile(os.path.join(to, path))]:
                    yield f"it is not installed: {answer.stdout}{answer.stderr}"
            if ran([*INSTALL, "--prefix", to, "--uninstall"]).returncode or tree(room) != before:
                yield f"left are {' '.join(set(tree(room)) - set(before))}, and gone {' '.join(set(before) - set(tree(room)))}"
            if ran([*INSTALL, "--prefix", to, "--uninstall"]).returncode != 1:
                yield "what is not installed is removed"
            shutil.rmtree(os.path.join(room, str(len(standing))), ignore_errors=True)


def refused(words, told, room, **how):
    """Nothing is written, the status is 1, and standard error has one line with these words."""
    before = tree(room)
    answer = ran([*INSTALL, *words], **how)
    if answer.returncode != 1 or not re.fullmatch(rf"install\.py: .*{told}.*\n", answer.stderr):
        yield f"install.py {' '.join(words)}: ended with {answer.returncode}, and printed {answer.stderr}"
    if tree(room) != before:
        yield f"install.py {' '.join(words)}: left is {' '.join(set(tree(room)) ^ set(before))}"


def check_refuses(said, prefix):
    with tempfile.TemporaryDirectory() as room:
        to = os.path.join(room, "to")
        bare = {**os.environ, "PATH": room}
        bare.pop("RATTLE_KIT", None)
        yield from refused(["--prefix", to], "no Rattle kit is found", room, env=bare)
        yield from refused(["--prefix", to], "no Rattle kit is found", room, env={**bare, "RATTLE_KIT": room})
        if not os.path.exists(os.path.join(TOP, "crates", "dgc", "out", "dgc")):
            yield from refused(["--prefix", to, "--proved"], "`rt ci`", room)
        yield from refused(["--prefix", to, "--program", "/bin/true"], "printed", room)
        yield from refused(["--prefix", to, "--program", room], "does not start", room)
        os.makedirs(os.path.join(to, "bin"))
        open(os.path.join(to, "bin", "dgc"), "w").close()
        yield from refused(["--prefix", to, "--program", said.program], "is there", room)
        os.makedirs(os.path.join(to, "share", "dgc"))
        for path in ("../other", "/other", "share/../../other"):
            with open(os.path.join(to, "share", "dgc", "installed"), "w") as file:
                file.write(f"{path}\n")
            yield from refused(["--prefix", to, "--uninstall"], "not below", room)


def check_fails(said, prefix):
    with tempfile.TemporaryDirectory() as room:
        to = os.path.join(room, "to")
        os.makedirs(to)
        open(os.path.join(to, "share"), "w").close()
        yield from refused(["--prefix", to, "--program", said.program], "no folder", room)
        os.remove(os.path.join(to, "share"))
        # The folder of this name stands where a file has to be written first.
        os.makedirs(os.path.join(to, "share", "fish", "vendor_completions.d", "dgc.fish.new"))
        yield from refused(["--prefix", to, "--program", said.program], "dgc.fish.new", room)
        if not shutil.which("rt"):
            return
        scratch = os.path.join(room, "scratch")
        os.makedirs(scratch)
        building = subprocess.Popen([*INSTALL, "--prefix", os.path.join(room, "other")], env={**os.environ, "TMPDIR": scratch},
                                    stdout=subprocess.DEVNULL, stderr=subprocess.DEVNULL)
        time.sleep(3)
        building.send_signal(signal.SIGTERM)
        if building.wait(30) != 1 or tree(scratch) or os.path.exists(os.path.join(room, "other")):
            yield f"a run that was stopped ended with {building.returncode}, and left {' '.join(tree(scratch))}"


CHECKS = {"bash": check_bash, "zsh": check_zsh, "fish": check_fish, "man": check_man, "values": check_values,
          "leaves": check_leaves, "refuses": check_refuses, "fails": check_fails}
NEEDS = {"bash": "bash", "zsh": "zsh", "fish": "fish", "man": "mandoc"}


def main():
    parser = argparse.ArgumentParser(description=__doc__.split("\n")[0])
    parser.add_argument("dgc")
    parser.add_argument("--only", nargs="+", choices=CHECKS, default=list(CHECKS))
    options = parser.parse_args()
    said, wrong = Said(os.path.abspath(options.dgc)), 0
    with tempfile.TemporaryDirectory() as room:
        prefix = os.path.join(room, "prefix")
        answer = ran([*INSTALL, "--prefix", prefix, "--program", said.program])
        if answer.returncode:
            sys.exit(f"installed.py: {answer.stdout}{answer.stderr}")
        for name in options.only:
            if name in NEEDS and not shutil.which(NEEDS[name]):
                print(f"{name}: left out, {NEEDS[name]} is missing")
                continue
            faults = list(CHECKS[name](said, prefix))
            wrong += len(faults)
            print("\n".join(f"{name}: {fault}" for fault in faults) or f"{name}: ok")
    sys.exit(wrong > 0)


if __name__ == "__main__":
    main()
