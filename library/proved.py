#!/usr/bin/env python3
"""proved.py: proves the crate of the library over the crates that `rt ci` left, and writes crates/dgc_c/out/libdgc_c.a. It takes some minutes.

`rt ci` proves that crate too and keeps no archive of it. `rt lib` in crates/dgc_c writes such an archive, and first proves all crates below
once more. The prover is the same, as are the libraries that it takes as proved: those in the folders `out` of the crates. Run it after
`rt ci` ended well, and before anything is changed. Ends with 1 where a library is missing or a function is not proved.
"""
import os
import subprocess
import sys

sys.dont_write_bytecode = True
TOP = os.path.dirname(os.path.dirname(os.path.abspath(__file__)))
sys.path.append(f"{TOP}/program")
import translation

CRATE = "dgc_c"
FOLDER = f"{TOP}/crates/{CRATE}"


def uses():
    """The libraries that each crate uses, by crates.txt."""
    found = {}
    with open(f"{TOP}/crates.txt") as file:
        for line in file:
            crate, colon, libraries = line.split("#")[0].partition(":")
            if colon:
                found[crate.split()[0]] = libraries.split()
    return found


def below(used, crate):
    """The crates of the repository below a crate."""
    found, left = {}, [crate]
    while left:
        for name in used[left.pop()]:
            if name in used and name not in found:
                found[name] = f"{TOP}/crates/{name}/out/rlib/{name}.rlib"
                left.append(name)
    return found


def words(kit, used, libraries):
    """The words of the prover."""
    of_kit = f"{kit}/rlibs"
    given = [f"{name}={libraries.get(name, f'{of_kit}/{name}.rlib')}" for name in ["std", *used[CRATE]]]
    folders = [of_kit, *(os.path.dirname(path) for path in libraries.values())]
    return [
        f"{kit}/bin/rattle", "build", "--crate-name", CRATE, "src/lib.rt",
        *(word for one in given for word in ("--extern", one)),
        *(word for folder in folders for word in ("-L", f"dependency={folder}")),
        "--antt-project", f"{kit}/rattle/logic/antt-project.json", "--logic-built", f"{kit}/logic_built",
        "--links", f"{CRATE}=", "--crate-type", "staticlib", "--toolchain", f"{kit}/toolchain", "-o", f"out/lib{CRATE}.a",
    ]


def main():
    if sys.argv[1:]:
        sys.exit(__doc__)
    try:
        kit = translation.find_kit()
    except translation.NoKit as why:
        sys.exit(f"proved.py: {why}")
    used = uses()
    libraries = below(used, CRATE)
    missing = [name for name, path in libraries.items() if not os.path.isdir(path)]
    if missing:
        sys.exit(f"proved.py: no proved library of {', '.join(missing)}. `rt ci` leaves them")
    os.makedirs(f"{FOLDER}/out", exist_ok=True)
    run = subprocess.run(words(kit, used, libraries), cwd=FOLDER, stdout=subprocess.PIPE, stderr=subprocess.STDOUT, text=True, errors="replace")
    is_written = run.returncode == 0 and os.path.isfile(f"{FOLDER}/out/lib{CRATE}.a")
    print(*(line for line in run.stdout.splitlines() if not is_written or line.startswith("logic=")), sep="\n")
    print(f"{FOLDER}/out/lib{CRATE}.a is {'written' if is_written else 'NOT written'}")
    sys.exit(0 if is_written else 1)


if __name__ == "__main__":
    main()
