#!/usr/bin/env python3
"""install.py PREFIX [--archive FILE]: installs the library for C.

It puts include/dgc.h, lib/libdgc.a, lib/pkgconfig/dgc.pc and lib/cmake/dgc/dgc-config.cmake into PREFIX. The archive is made of what
proved.py leaves, crates/dgc_c/out/libdgc_c.a, of the part of the kit that calls malloc, realloc and free, and of null.c beside this script.
With --archive an archive that is made already is installed, as that of unproved.py.
"""
import argparse
import os
import re
import shutil
import subprocess
import sys
import tempfile

HERE = os.path.dirname(os.path.abspath(__file__))
TOP = os.path.dirname(HERE)
BUILT = f"{TOP}/crates/dgc_c/out/libdgc_c.a"


def archive(out):
    """Makes libdgc.a of what the prover left."""
    sys.path[:0] = [HERE, f"{TOP}/program"]
    import archive as made
    import translation

    if not os.path.isfile(BUILT):
        sys.exit(f"install.py: no {BUILT}. `python3 library/proved.py` leaves it")
    try:
        kit = translation.find_kit()
    except translation.NoKit as why:
        sys.exit(f"install.py: {why}")
    with tempfile.TemporaryDirectory() as room:
        subprocess.run([f"{kit}/toolchain/bin/llvm-ar", "x", BUILT], cwd=room, check=True)
        return made.write(kit, sorted(f"{room}/{name}" for name in os.listdir(room)), out)


def version():
    """The version of the program, as the library tells it."""
    with open(f"{TOP}/crates/dgc_c/src/version.rt") as file:
        return re.search(r'"dgc ([0-9.]+),', file.read())[1]


def write(path, text):
    os.makedirs(os.path.dirname(path), exist_ok=True)
    with open(path, "w") as file:
        file.write(text)


def main():
    parser = argparse.ArgumentParser(description=__doc__.split("\n")[0])
    parser.add_argument("prefix")
    parser.add_argument("--archive")
    options = parser.parse_args()
    prefix = os.path.abspath(options.prefix)
    for folder in ("include", "lib"):
        os.makedirs(f"{prefix}/{folder}", exist_ok=True)
    shutil.copy(f"{TOP}/include/dgc.h", f"{prefix}/include/dgc.h")
    if options.archive:
        shutil.copy(options.archive, f"{prefix}/lib/libdgc.a")
    else:
        archive(f"{prefix}/lib")
    for name, to in (("dgc.pc", "pkgconfig/dgc.pc"), ("dgc-config.cmake", "cmake/dgc/dgc-config.cmake"), ("dgc-config-version.cmake", "cmake/dgc/dgc-config-version.cmake")):
        with open(f"{HERE}/{name}.in") as file:
            write(f"{prefix}/lib/{to}", file.read().replace("@prefix@", prefix).replace("@version@", version()))
    print(f"{prefix}/lib/libdgc.a")


main()
