#!/usr/bin/env python3
"""Builds the program dgc without proofs, in minutes, and installs it.

    install.py [--prefix DIR]                   builds it with the Rattle kit whose `rt` is on the PATH, or that RATTLE_KIT names
    install.py [--prefix DIR] --proved          takes the program that `rt ci` left: crates/dgc/out/dgc
    install.py [--prefix DIR] --program FILE    takes a program that is built already
    install.py [--prefix DIR] --uninstall       removes what it installed

Below DIR, which is ~/.local where it is not given, it puts the program, its manual page, and completions for bash, zsh and fish, which it
makes from what the program prints of itself (FILES). A program that is built without proofs says so in the second line of
`dgc --version`. Its tests of bounds and sums stay in it: where a proof would have refused the code it ends, and does not go on.

What is written is listed in share/dgc/installed, and --uninstall removes that: the files, and the folders that were made for them and
are empty. A run that fails or is stopped removes what it made. It ends with 1 then, or where it can do nothing.
"""
import argparse
import glob
import os
import re
import shutil
import signal
import subprocess
import sys
import tempfile
import time

sys.dont_write_bytecode = True
import completions
import manual
import told
import translation

TOP = translation.TOP
PROVED = os.path.join(TOP, "crates", "dgc", "out", "dgc")
SOURCES = ("src/**/*.rt", "specs/**/*.antt", "proofs/**/*.antt")
EXAMPLE = [os.path.join(TOP, "crates", "dgc", "data", name) for name in ("one.ll", "one.cert")]
PROGRAM, LIST = "bin/dgc", "share/dgc/installed"
# What is made from what the program tells of itself, and where it goes.
FILES = {
    "share/man/man1/dgc.1": manual.manual,
    "share/bash-completion/completions/dgc": completions.bash,
    "share/zsh/site-functions/_dgc": completions.zsh,
    "share/fish/vendor_completions.d/dgc.fish": completions.fish,
}


class Refused(Exception):
    """Why nothing is installed."""


def say(text):
    print(text, flush=True)


# ---- the program

def built(room):
    """Builds the program without proofs."""
    kit, begun = translation.find_kit(), time.monotonic()
    say(f"dgc is built without proofs, by the kit {kit} with the logic {translation.logic(kit)}. That takes some minutes, and about 2.5 GB of memory.")
    translation.keep(kit, room, "dgc")
    say(f"It is translated, after {time.monotonic() - begun:.0f} s. Clang compiles it, at -O1.")
    program = os.path.join(room, "dgc")
    translation.link(kit, translation.compiled(kit, room, level="-O1"), program)
    return program


def proved():
    """The program that `rt ci` left."""
    if not os.path.isfile(PROVED):
        raise Refused(f"no {PROVED}: `rt ci` in {TOP} proves the program, and leaves it there")
    if "not proved" in told.said(PROVED, "--version"):
        raise Refused(f"{PROVED} says itself that it is not proved")
    made = os.path.getmtime(PROVED)
    sources = [path for kind in SOURCES for path in glob.glob(os.path.join(TOP, "crates", "*", kind), recursive=True)]
    newer = sum(os.path.getmtime(path) > made for path in sources)
    if newer:
        say(f"{newer} files of crates/ were written after {PROVED}. `rt ci` proves the program of what they say now.")
    return PROVED


def tried(program):
    """Looks whether a program checks README's first example."""
    try:
        ran = subprocess.run([program, "check", *EXAMPLE], capture_output=True, text=True, stdin=subprocess.DEVNULL)
    except OSError as error:
        raise Refused(f"{program} does not start: {error.strerror}")
    if (ran.returncode, ran.stdout) != (0, "yes 1\n"):
        raise Refused(f"{program} check {' '.join(EXAMPLE)} ended with {ran.returncode}, and printed {ran.stdout + ran.stderr}")
    return program


# ---- the files below the prefix

def whole(prefix, path):
    """The path of what the list has. A path of it that begins with `..` is a folder above the prefix."""
    return os.path.normpath(os.path.join(prefix, path))


def installed(prefix):
    """What the list below a prefix has: files, and the folders that were made for them."""
    try:
        with open(os.path.join(prefix, LIST), encoding="utf-8") as file:
            paths = file.read().split("\n")[:-1]
    except (FileNotFoundError, NotADirectoryError):
        return [], []
    for path in paths:
        if os.path.isabs(path) or ".." in path.split("/") and not re.fullmatch(r"(\.\./)+", path):
            raise Refused(f"{prefix}/{LIST} has {path}, which is not below {prefix}")
    return [path for path in paths if not path.endswith("/")], [path for path in paths if path.endswith("/")]


def looked_at(prefix):
    """Refuses a prefix where a file of another stands, or where nothing can be written."""
    own, _ = installed(prefix)
    for path in (PROGRAM, *FILES, LIST):
        if os.path.lexists(whole(prefix, path)) and path not in own:
            raise Refused(f"{whole(prefix, path)} is there, and install.py did not put it there. Remove it, or give another --prefix")
        above = os.path.dirname(whole(prefix, path))
        while not os.path.lexists(above):
            above = os.path.dirname(above)
        if not os.path.isdir(above) or not os.access(above, os.W_OK | os.X_OK):
            raise Refused(f"{above} is no folder into which you may write. Give another --prefix")


def folders_for(prefix, path):
    """The folders that have to be made for a file below a prefix, the outermost first, as the list has them."""
    folder, wanted = os.path.dirname(path), []
    while not os.path.isdir(whole(prefix, folder)):
        wanted.insert(0, f"{folder or '.'}/")
        folder = os.path.dirname(folder) if folder and not folder.startswith("..") else os.path.join("..", folder).rstrip("/")
    return wanted


def removed(prefix, files, folders):
    """Removes files, and folders that are empty then. Returns the files that were there."""
    gone = [path for path in files if os.path.isfile(whole(prefix, path)) or os.path.islink(whole(prefix, path))]
    for path in gone:
        os.remove(whole(prefix, path))
    for folder in sorted((whole(prefix, folder) for folder in folders), key=len, reverse=True):
        if os.path.isdir(folder) and not os.listdir(folder):
            os.rmdir(folder)
    return gone


def staged(room, program):
    """A folder with what is installed, as it will stand below the prefix, but for the list."""
    stage, itself = os.path.join(room, "stage"), told.told_by(program)
    for path, make in FILES.items():
        os.makedirs(os.path.dirname(os.path.join(stage, path)))
        with open(os.path.join(stage, path), "w", encoding="utf-8") as file:
            file.write(make(itself))
    os.makedirs(os.path.dirname(os.path.join(stage, PROGRAM)))
    shutil.copyfile(program, os.path.join(stage, PROGRAM))
    os.chmod(os.path.join(stage, PROGRAM), 0o755)
    return stage


def write_list(path, folders):
    with open(path, "w", encoding="utf-8") as file:
        file.write("".join(f"{line}\n" for line in (PROGRAM, *FILES, LIST, *dict.fromkeys(folders))))


def place(prefix, stage):
    """Writes each file beside its place, and then puts all in their places. Where that fails, removes what is new."""
    before, folders = installed(prefix)
    made, put = [], []
    try:
        for path in (PROGRAM, *FILES, LIST):
            for folder in folders_for(prefix, path):
                os.mkdir(whole(prefix, folder))
                made.append(folder)
            if path != LIST:
                shutil.copyfile(os.path.join(stage, path), os.path.join(prefix, f"{path}.new"))
                shutil.copymode(os.path.join(stage, path), os.path.join(prefix, f"{path}.new"))
        write_list(os.path.join(prefix, f"{LIST}.new"), folders + made)
        for path in (PROGRAM, *FILES, LIST):
            os.replace(os.path.join(prefix, f"{path}.new"), os.path.join(prefix, path))
            put.append(path)
    except BaseException:
        removed(prefix, [f"{path}.new" for path in (PROGRAM, *FILES, LIST)] + [path for path in put if path not in before], made)
        raise


def install(prefix, room, program):
    """Installs a program with what is made from what it tells of itself."""
    place(prefix, staged(room, program))
    for path in (PROGRAM, *FILES, LIST):
        say(f"    {os.path.join(prefix, path)}")
    version = told.said(os.path.join(prefix, PROGRAM), "--version").rstrip("\n").replace("\n", ", ")
    say(f"{version}: installed. `python3 {sys.argv[0]} --prefix {prefix} --uninstall` removes it.")
    if os.path.join(prefix, "bin") not in os.environ.get("PATH", "").split(os.pathsep):
        say(f"{os.path.join(prefix, 'bin')} is not on the PATH.")
    if shutil.which("zsh") and prefix not in ("/usr", "/usr/local"):
        say(f"zsh finds its completions where fpath has {os.path.join(prefix, 'share', 'zsh', 'site-functions')}.")


def uninstall(prefix):
    files, folders = installed(prefix)
    if not files:
        raise Refused(f"nothing is installed below {prefix}: no {prefix}/{LIST}")
    for path in removed(prefix, files, folders):
        say(f"    {os.path.join(prefix, path)}")
    say("These are removed.")


# ---- the command line

def asked():
    parser = argparse.ArgumentParser(description=__doc__.split("\n")[0])
    parser.add_argument("--prefix", default=os.path.join("~", ".local"), metavar="DIR", help="the folder below which it is installed (~/.local)")
    how = parser.add_mutually_exclusive_group()
    how.add_argument("--proved", action="store_true", help="take the program that `rt ci` left")
    how.add_argument("--program", metavar="FILE", help="take a program that is built already")
    how.add_argument("--uninstall", action="store_true", help="remove what was installed")
    return parser.parse_args()


def main():
    options = asked()
    prefix = os.path.abspath(os.path.expanduser(options.prefix))
    if options.uninstall:
        return uninstall(prefix)
    looked_at(prefix)
    with tempfile.TemporaryDirectory(prefix="dgc-install-") as room:
        if options.program:
            program = os.path.abspath(options.program)
        else:
            program = proved() if options.proved else built(room)
        install(prefix, room, tried(program))


if __name__ == "__main__":
    for stop in (signal.SIGTERM, signal.SIGHUP, signal.SIGINT):
        signal.signal(stop, lambda number, _: sys.exit("install.py: stopped, and what it made is removed"))
    try:
        main()
    except (Refused, translation.NoKit, translation.NotTranslated, OSError, subprocess.SubprocessError, ValueError) as why:
        sys.exit(f"install.py: {str(why).rstrip()}")
