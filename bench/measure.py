#!/usr/bin/env python3
"""Times `dgc check` on generated modules, and LLVM's own reader and verifier on the same files.

    measure.py DGC [--functions N ..] [--seed S] [--runs R]

Prints, for each number of functions, the size of the text, the fastest of R runs of each program, the text
read per second, and how many times longer than `opt -passes=verify` the check took. `opt` and `llvm-as` are
left out where they are not on the machine. For use by hand.
"""
import argparse
import os
import shutil
import subprocess
import sys
import tempfile

from timing import fastest

HERE = os.path.dirname(os.path.abspath(__file__))


def main():
    parser = argparse.ArgumentParser(description=__doc__.split("\n")[0])
    parser.add_argument("dgc")
    parser.add_argument("--functions", type=int, nargs="+", default=[1000, 3000, 10000])
    parser.add_argument("--seed", type=int, default=0)
    parser.add_argument("--runs", type=int, default=5)
    options = parser.parse_args()
    with tempfile.TemporaryDirectory() as folder:
        for functions in options.functions:
            base = os.path.join(folder, f"m{functions}")
            subprocess.run([sys.executable, os.path.join(HERE, "generate.py"), "--functions",
                            str(functions), "--seed", str(options.seed), base], check=True)
            text = base + ".ll"
            size = os.path.getsize(text) / 1e6
            rows = [("dgc check", [options.dgc, "check", text, base + ".cert"])]
            if shutil.which("opt"):
                rows.append(("opt verify", ["opt", "-passes=verify", "-disable-output", text]))
            if shutil.which("llvm-as"):
                rows.append(("llvm-as", ["llvm-as", "-o", os.devnull, text]))
            times = {}
            print(f"{functions} functions, {size:.2f} MB of text")
            for name, command in rows:
                times[name], printed = fastest(command, options.runs)
                print(f"  {name:10} {times[name] * 1000:9.1f} ms {size / times[name]:8.1f} MB/s  {printed[:60]}")
            if "opt verify" in times:
                print(f"  check / opt verify = {times['dgc check'] / times['opt verify']:.2f}")


if __name__ == "__main__":
    main()
