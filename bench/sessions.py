#!/usr/bin/env python3
"""Refuses each request for memory of a session of ten edits in turn, and looks at what comes of the edits.

    sessions.py [--scratch FOLDER] [--program PROGRAM]

bench/sessions/session_trial is a program over `recheck`. Where memory is refused for an edit, it compares what the session says with
what it said before, and applies the edit once more. Of each edit it prints how it ended, and the verdict and the count after
it. So each run has to print what it prints where memory is ample, or `memory` where memory was refused before the first edit.
The script builds the program in FOLDER (by default out/session_trial); PROGRAM is one that was built before. Ends with status 1
where a run prints something else. For use by hand.
"""
import argparse
import os
import sys
import tempfile

from building import TOP, build
from refused import Refuser

SOURCE = os.path.join(TOP, "bench", "sessions", "session_trial")
USES = "ir_ast ir_text certs certificate recheck"
WITHOUT = (1, b"memory\n", b"", None)


def main():
    parser = argparse.ArgumentParser(description=__doc__.split("\n")[0])
    parser.add_argument("--scratch", default=os.path.join(TOP, "out", "session_trial"))
    parser.add_argument("--program")
    options = parser.parse_args()
    program = options.program or build(options.scratch, SOURCE, USES, [])
    with tempfile.TemporaryDirectory() as folder:
        refuser = Refuser(os.path.abspath(program), folder)
        refuser.refuse_each("session", "", 1, [False], WITHOUT)
    sys.exit(1 if refuser.wrong else 0)


if __name__ == "__main__":
    main()
