"""Builds a program of bench/ that is no crate of crates.txt: its files have the suffix .in, so the gate does not prove it."""
import os
import shutil
import subprocess
import sys

TOP = os.path.dirname(os.path.dirname(os.path.abspath(__file__)))


def copy(crate, to):
    """Copies the sources of a crate, and leaves what was built there."""
    for part in ("src", "specs", "proofs"):
        shutil.rmtree(os.path.join(to, part), ignore_errors=True)
        if os.path.isdir(os.path.join(crate, part)):
            shutil.copytree(os.path.join(crate, part), os.path.join(to, part))


def build(scratch, source, uses, words):
    """Proves and builds the program whose files are in `source`, in a copy of the crates; `rt run` runs it with these words.

    Returns its path. That takes some minutes the first time, or more where the crates below are not proved yet.
    """
    name = os.path.basename(source)
    os.makedirs(scratch, exist_ok=True)
    for crate in os.listdir(os.path.join(TOP, "crates")):
        copy(os.path.join(TOP, "crates", crate), os.path.join(scratch, "crates", crate))
    folder = os.path.join(scratch, "crates", name)
    copy(source, folder)
    for path, _, names in os.walk(folder):
        for file in names:
            if file.endswith(".in"):
                os.rename(os.path.join(path, file), os.path.join(path, file[: -len(".in")]))
    with open(os.path.join(TOP, "crates.txt")) as listed, open(os.path.join(scratch, "crates.txt"), "w") as out:
        out.write(f"{listed.read()}\n{name}: {uses}\n")
    shutil.copy(os.path.join(TOP, "HANDLES"), scratch)
    subprocess.run(["rt", "run", "--", *words], cwd=folder, check=True, stdout=sys.stderr)
    return os.path.join(folder, "out", name)
