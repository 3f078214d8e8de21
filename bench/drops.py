#!/usr/bin/env python3
"""drops.py: which functions drop many owned values in their own code, which is what proofs cost most.

Where a value ends at an early exit, at an assignment or at the end of a function, each of its fields is dropped there, and
each such drop is a step of the proof. `drop(x)` is one call in its place. The libraries that a check has built (`rt all lib`,
or what `rt ci` works on) hold the code as the prover sees it.
"""
import argparse
import glob
import json
import os


def calls(code):
    """The names of the functions that some code calls."""
    if isinstance(code, dict):
        called = code.get("Call")
        if called and isinstance(called[0], dict) and "Fn" in called[0]:
            yield called[0]["Fn"][0]
        for part in code.values():
            yield from calls(part)
    elif isinstance(code, list):
        for part in code:
            yield from calls(part)


def counts(folder):
    """Each function of a library: how many values it drops by itself, how many calls it has, and its name."""
    crate = os.path.basename(folder).removesuffix(".rlib")
    with open(f"{folder}/toolchain/mir.json") as file:
        functions = json.load(file)
    for name, function in functions:
        if name.startswith(crate + "::") and "+Destruct" not in name:
            called = list(calls(function["body"]))
            drops = [one for one in called if one.endswith("::drop") and not one.endswith("mem::drop")]
            yield len(drops), len(called), name


def main():
    parser = argparse.ArgumentParser(description=__doc__, formatter_class=argparse.RawDescriptionHelpFormatter)
    parser.add_argument("--libraries", default="crates/*/out/rlib/*.rlib", help="where the libraries are, with * for any name")
    parser.add_argument("--most", type=int, default=40, help="how many functions are listed")
    words = parser.parse_args()
    found = [row for folder in glob.glob(words.libraries) for row in counts(folder)]
    for drops, called, name in sorted(found, reverse=True)[:words.most]:
        print(f"{drops:4} drops of {called:4} calls  {name}")
    print(f"{sum(row[0] for row in found)} drops in {len(found)} functions")


if __name__ == "__main__":
    main()
