#!/usr/bin/env python3
"""Tries the language server: an editor without a screen opens modules of this repository, and looks at what the server says.

    try.py DGC [--only WORD ..]

Each case starts the server in a folder of its own, with copies of examples/swap, of bench/fixes and of rows of crates/dgc_tests, and compares
what was seen with what has to be seen. It prints a line for each case, and of one that differs both. The last line is a count, and the status
is 1 where a case differs. --only makes those alone whose names have one of the words.
"""
import argparse
import os
import shutil
import sys
import tempfile

import tried_runs
import tried_texts

CASES = tried_texts.CASES + tried_runs.CASES


def last_error(folder):
    """The end of what the server of a case wrote to its standard error."""
    try:
        with open(os.path.join(folder, "errors"), encoding="utf-8", errors="replace") as file:
            return "".join(file.readlines()[-12:])
    except OSError:
        return ""


def make(case, dgc):
    """Makes a case in a folder of its own. Returns whether what was seen is what has to be."""
    folder = os.path.realpath(tempfile.mkdtemp(prefix="dgc-try-"))
    name = case.__doc__.strip().rstrip(".")
    try:
        seen, wanted = case(dgc, folder)
    except Exception as fault:
        seen, wanted = f"{type(fault).__name__}: {fault}", "an answer"
        print(last_error(folder), end="", flush=True)
    finally:
        shutil.rmtree(folder, ignore_errors=True)
    print(f"{'ok   ' if seen == wanted else 'WRONG'}  {name}", flush=True)
    if seen != wanted:
        print(f"       seen   {seen!r}\n       wanted {wanted!r}", flush=True)
    return seen == wanted


def main():
    parser = argparse.ArgumentParser(description=__doc__.split("\n")[0])
    parser.add_argument("dgc", type=os.path.abspath)
    parser.add_argument("--only", nargs="+", default=[""])
    options = parser.parse_args()
    cases = [case for case in CASES if any(word in case.__doc__ for word in options.only)]
    right = sum(make(case, options.dgc) for case in cases)
    print(f"{right} of {len(cases)} are as they should be")
    sys.exit(right < len(cases) or not cases)


if __name__ == "__main__":
    main()
