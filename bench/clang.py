#!/usr/bin/env python3
"""Reads by `dgc check` what clang makes of the small programs of bench/clang.

    clang.py DGC [--clang PROGRAM] [--debug] [--keep FOLDER] [--all]

Each program is compiled to a text of LLVM IR with -O0, -O1 and -O2, without vectors and built-in functions. A second
comment `flags: ..` at its beginning has more flags. The certificate is empty, so what is tried is the reader: a text is
read where no fault L1 to L10 is printed. Prints for each text that it is read; or the fault with the line that it names,
and whether the form is one that is left out on purpose (LEFT_OUT). Ends with status 1 where another form is refused.
clang is of any version. With --debug it writes debug information too. With --all the texts that are read are printed too.
For use by hand.
"""
import argparse
import collections
import os
import re
import shutil
import subprocess
import sys
import tempfile

HERE = os.path.dirname(os.path.abspath(__file__))
FLAGS = ["-S", "-emit-llvm", "-w", "-fno-builtin", "-fno-vectorize", "-fno-slp-vectorize", "-fno-unroll-loops", "-fno-exceptions"]
LEVELS = ["-O0", "-O1", "-O2"]

# What is left out on purpose: a name for the kind of form, what the fault's word is, and what its line has.
LEFT_OUT = [
    ("division, remainder or a shift", r"[su]div|[su]rem|shl|[la]shr", r""),
    ("floating point", r"half|bfloat|float|double|fp128|x86_fp80|f(add|sub|mul|div|rem|neg|cmp|ptrunc|pext|pto[us]i)|[su]itofp", r""),
    ("a packed struct", r"<.*", r"= type <"),
    ("vectors", r"<.*|extractelement|insertelement|shufflevector", r""),
    ("pointers as numbers", r"ptrtoint|inttoptr|addrspacecast|addrspace", r""),
    ("exceptions", r"invoke|landingpad|resume|personality", r""),
    ("atomic steps", r"atomic|atomicrmw|cmpxchg|fence", r""),
    ("structs in registers", r"extractvalue|insertvalue|byval|sret|inalloca|preallocated", r""),
    ("poison and freeze", r"poison|freeze", r""),
    ("other jumps and calls", r"musttail|asm|va_arg|indirectbr|callbr|blockaddress", r""),
    ("varargs", r"\.\.\.", r""),
    ("thread_local", r"thread_local", r""),
    ("data before a function", r"prefix|prologue", r""),
    ("an intrinsic", r"@llvm\..*", r""),
    ("a constant expression", r"getelementptr|icmp|select|trunc|zext|sext|add|sub|bitcast", r"(getelementptr|icmp|select|trunc|zext|sext|add|sub|bitcast)[a-z ]* \("),
    ("a global that is an array or a struct", r"\[|<?\{|%.*", r"^@\S+ = [^\"]*\b(global|constant) (\[|<?\{|%[^*]*[,\s])"),
    ("a global without a value", r"external|extern_weak", r"^@\S+ = [^\"]*\bextern"),
    ("a local that is an array or a struct", r"\[|\{|%.*", r"= alloca (\[|\{|%[^*]*,)"),
    ("a pointer to something else as a parameter or a result", r"i\d+|\[|%.*|\(", r"^define "),
    ("a call of a value", r"%.*|\(|i\d+|void", r"\bcall .*%"),
    ("a function's type", r"\(", r"\)\*"),
    ("an opaque struct", r"opaque", r"= type opaque"),
    ("another name of a global or a function", r"alias|ifunc", r"^@\S+ = "),
]


def flags_of(path):
    """The flags that a program asks for."""
    with open(path) as file:
        found = re.search(r"flags: (.*?)(\*/|\n)", file.readline())
    return found.group(1).split() if found else []


def compiled(clang, path, levels, out):
    """Compiles a program to IR, and says what clang says if it fails."""
    command = [clang, *FLAGS, *levels, *flags_of(path), "-o", out, path]
    run = subprocess.run(command, capture_output=True, text=True)
    return run.stderr if run.returncode else ""


def read(dgc, text, cert):
    """The reader's fault in a text: its code, line, column and word; or None."""
    run = subprocess.run([dgc, "check", text, cert], capture_output=True, text=True)
    found = re.match(r"error (L\d+) (\d+):(\d+) ?(.*)", run.stderr)
    return (found[1], int(found[2]), int(found[3]), found[4]) if found else None


def left_out(code, word, line):
    """The kind of form that is left out on purpose, if the fault is at one."""
    if code != "L7":
        return None
    return next((name for name, words, has in LEFT_OUT if re.fullmatch(words, word) and re.search(has, line)), None)


def main():
    parser = argparse.ArgumentParser(description=__doc__.split("\n")[0])
    parser.add_argument("dgc")
    parser.add_argument("--clang", default=shutil.which("clang-14") or "clang")
    parser.add_argument("--debug", action="store_true")
    parser.add_argument("--keep", default=None)
    parser.add_argument("--all", action="store_true")
    options = parser.parse_args()
    programs = sorted(name for name in os.listdir(os.path.join(HERE, "clang")) if name.endswith((".c", ".cpp")))
    counts, wrong = collections.Counter(), 0
    with tempfile.TemporaryDirectory() as scratch:
        folder = options.keep or scratch
        os.makedirs(folder, exist_ok=True)
        cert = os.path.join(folder, "empty.cert")
        with open(cert, "w") as out:
            out.write("cert 1\n")
        for name in programs:
            for level in LEVELS:
                text = os.path.join(folder, f"{name}{level}.ll")
                failed = compiled(options.clang, os.path.join(HERE, "clang", name), [level, "-g"] if options.debug else [level], text)
                if failed:
                    sys.exit(f"{name} {level}: {failed}")
                fault = read(options.dgc, text, cert)
                if fault is None:
                    counts["read"] += 1
                    if options.all:
                        print(f"{name} {level}: read")
                    continue
                code, row, column, word = fault
                with open(text) as file:
                    line = file.read().split("\n")[row - 1]
                form = left_out(code, word, line)
                counts["left out: " + form if form else "refused"] += 1
                wrong += form is None
                print(f"{name} {level}: {'left out: ' + form if form else 'REFUSED'}: {code} {row}:{column} {word}\n    {line.strip()[:150]}")
    print(f"{len(programs)} programs, {sum(counts.values())} texts")
    for what, count in counts.most_common():
        print(f"  {count:4} {what}")
    sys.exit(1 if wrong else 0)


if __name__ == "__main__":
    main()
