#!/usr/bin/env python3
"""Tries `dgc lower` with the versions of LLVM that are installed, and what LLVM makes of texts that were not lowered.

    lowering.py DGC [--modules N] [--seed S] [--versions V ..] [--keep FOLDER]

First come the facts of docs/LOWERING.md: for each small text what LLVM makes of it, a line for each fact and a column for each version.
Then N modules of `agree.py` are drawn, lowered by `dgc lower`, verified by `opt -passes=verify`,
compiled by `llc -O2`, and run. From version 20 on they are also compiled after `shadow-stack-gc-lowering,default<O2>`. Each function has
to return what `dgc replay` says. Ends with 1 where a text is refused, or where something else is returned.

To install: `apt-get install clang-22 llvm-22`, and so on for each version. Version 14 needs no more than these two either.
"""
import argparse
import os
import random
import re
import shutil
import subprocess
import sys
import tempfile

import agree

TOP = os.path.dirname(os.path.dirname(os.path.abspath(__file__)))
VERSIONS = ["14", "16", "19", "22"]
RUNTIME = """
void dg_write(void *value, void **place) { *place = value; }
void dg_end(void) { exit(3); }
"""
HEAD = """declare void @llvm.gcroot(ptr, ptr)
declare void @llvm.gcwrite(ptr, ptr, ptr)
declare ptr @dg_alloc(i32)
declare void @dg_safepoint()
@top = global ptr null
"""
KEEPS = """define ptr @inner(ptr %x) gc "shadow-stack" {
  %s = alloca ptr
  call void @llvm.gcroot(ptr %s, ptr null)
  store ptr %x, ptr %s
  call void @dg_safepoint()
  %y = load ptr, ptr %s
  ret ptr %y
}
"""
CALLS = """define ptr @outer(ptr %x) gc "shadow-stack" {
  %y = call ptr @inner(ptr %x)
  ret ptr %y
}
"""
WAITS = """define void @waits() {
entry:
  br label %loop
loop:
  %v = load ptr, ptr @top
  %c = icmp eq ptr %v, null
  br i1 %c, label %loop, label %out
out:
  ret void
}
"""
STRUCTS = """%A = type { i64 }
%B = type { i64, i64 }
%C = type { i64, i64, i64 }
declare ptr @dg_alloc(i32)
define i64 @f() {
entry:
  %c = call ptr @dg_alloc(i32 0)
  %b = call ptr @dg_alloc(i32 2)
  %p = getelementptr %C, ptr %b, i32 0, i32 2
  %v = load i64, ptr %p
  %q = getelementptr %B, ptr %b, i32 0, i32 1
  ret i64 %v
}
"""
CHAIN = "@llvm_gc_root_chain = external thread_local global ptr\n"
FLAGS = "define i1 @f(i32 %a) {\n  %b = add nsw i32 %a, 1\n  %c = icmp sgt i32 %b, %a\n  ret i1 %c\n}\n"
NAMES = "define i32 @abs(i32 %x) {\n  %r = add i32 %x, 100\n  ret i32 %r\n}\ndefine i32 @go() {\n  %r = call i32 @abs(i32 -5)\n  ret i32 %r\n}\n"


class Llvm:
    """The programs of one version."""

    def __init__(self, version, folder):
        self.version, self.folder = version, folder
        self.words = ["-opaque-pointers"] if version == "14" else []

    def run(self, program, words, text=None):
        """What a program prints, and its status."""
        done = subprocess.run([f"{program}-{self.version}", *words], input=text, capture_output=True, text=True)
        return done.stdout, done.stderr, done.returncode

    def opt(self, passes, text):
        out, err, status = self.run("opt", [*self.words, f"-passes={passes}", "-S"], text)
        return out if status == 0 else f"refused: {(err.splitlines() or ['it ends by a signal'])[0]}"

    def assembly(self, text):
        out, err, status = self.run("llc", [*self.words, "-O2", "-o", "-"], text)
        return out if status == 0 else f"refused: {(err.splitlines() or ['it ends by a signal'])[0]}"

    def symbols(self, text):
        path = os.path.join(self.folder, f"symbols.{self.version}.o")
        self.run("llc", [*self.words, "-O2", "-filetype=obj", "-o", path], text)
        return self.run("llvm-objdump", ["-t", path])[0]


def lowers_roots(llvm):
    """Whether `opt` has a pass that lowers roots, and it does so."""
    out = llvm.opt("shadow-stack-gc-lowering", HEAD + KEEPS)
    return "no such pass" if out.startswith("refused") else "yes" if "gc_frame" in out else "it does nothing"


def facts(llvm):
    """What this version makes of texts that were not lowered."""
    write = HEAD + 'define void @f(ptr %x) gc "shadow-stack" {\n  call void @llvm.gcwrite(ptr %x, ptr null, ptr @top)\n  ret void\n}\n'
    yield "`llvm.gcwrite` is", "a plain store" if not re.search(r"call|jmp", llvm.assembly(write)) else "a call"
    section = re.search(r"\.t?bss", llvm.symbols(HEAD + KEEPS))
    yield "without a declaration, the root chain is", "one for all threads" if section and section[0] == ".bss" else "another one for each"
    section = re.search(r"\.t?bss", llvm.symbols(HEAD + KEEPS + CHAIN))
    yield "with the thread-local declaration, it is", "one for each thread" if section and section[0] == ".tbss" else "one for all threads"
    out = llvm.opt("default<O2>", HEAD + KEEPS + CHAIN)
    yield "`opt -O2` drops that declaration", "no" if "@llvm_gc_root_chain" in out else "yes"
    out = llvm.assembly(llvm.opt("default<O2>", HEAD + KEEPS + CALLS))
    yield "`llc` after `opt -O2` of functions with roots", "refuses the text" if out.startswith("refused") else "takes the text"
    yield "`opt -passes=shadow-stack-gc-lowering` lowers the roots", lowers_roots(llvm)
    frame = llvm.opt("shadow-stack-gc-lowering", HEAD + KEEPS)
    yield "after that a slot is set before the frame is linked in", "-" if lowers_roots(llvm) != "yes" else "no" if "store ptr null" not in frame else "yes"
    yield "without `nounwind`, calls unwind by", "__gcc_personality_v0" if "__gcc_personality_v0" in llvm.assembly(HEAD + KEEPS) else "nothing"
    yield "a loop that waits for a global, plain load", "is endless" if len(re.findall("load ptr", llvm.opt("default<O2>", HEAD + WAITS))) == 1 and endless(llvm) else "loads each time"
    yield "`a + 1 > a` with `nsw`", "is true" if "ret i1 true" in llvm.opt("default<O2>", FLAGS) else "is computed"
    yield "a call of an `@abs` that the text defines", "is the C library's" if "ret i32 5" in llvm.opt("default<O2>", NAMES) else "is the text's"
    out = llvm.opt("verify", STRUCTS)
    yield "`opt -S` prints the structs A, B, C as", ", ".join(re.findall(r"^%(\w) = type", out, re.M))


def endless(llvm):
    """Whether the loop that waits has a block that leads only to itself."""
    return bool(re.search(r"^loop:.*\n(  %\S+ = phi.*\n)*  br label %loop", llvm.opt("default<O2>", HEAD + WAITS), re.M))


def lowered(dgc, path):
    """A text with typed pointers as LLVM shall compile it."""
    done = subprocess.run([dgc, "lower", path], capture_output=True, text=True)
    if done.returncode:
        sys.exit(done.stderr)
    return done.stdout


def returned(llvm, base, text):
    """What the compiled text prints."""
    out, err, status = llvm.run("llc", [*llvm.words, "-O2", "-filetype=obj", "--relocation-model=pic", "-o", base + ".o"], text)
    if status:
        sys.exit(f"llc-{llvm.version}: {err}")
    subprocess.run([f"clang-{llvm.version}", "-w", "-o", base + ".out", base + ".o", base + ".c"], check=True)
    return subprocess.run([base + ".out"], capture_output=True, text=True).stdout.splitlines()


def compare(dgc, llvms, base):
    """Compiles a drawn module by each version. Gives how many threads returned, or ends with the first difference."""
    replayed = subprocess.run([dgc, "replay", base + ".ll", base + ".trace"], capture_output=True, text=True).stdout.splitlines()
    wanted = [line for line in replayed if line.startswith("t ")]
    text = lowered(dgc, base + ".run.ll")
    with open(base + ".c", "a") as out:
        out.write(RUNTIME)
    for llvm in llvms:
        verified = llvm.opt("verify", text)
        if verified.startswith("refused"):
            sys.exit(f"{base}: LLVM {llvm.version}: {verified}")
        texts = [text] + ([llvm.opt("shadow-stack-gc-lowering,default<O2>", text)] if lowers_roots(llvm) == "yes" else [])
        for each in texts:
            found = returned(llvm, base, each)
            if found != wanted:
                pair = next(((one, two) for one, two in zip(wanted, found) if one != two), (len(wanted), len(found)))
                sys.exit(f"{base}: LLVM {llvm.version}: dgc {pair[0]}, the lowered text {pair[1]}")
    return len(wanted)


def main():
    parser = argparse.ArgumentParser(description=__doc__.split("\n")[0])
    parser.add_argument("dgc", type=os.path.abspath)
    parser.add_argument("--modules", type=int, default=20)
    parser.add_argument("--seed", type=int, default=0)
    parser.add_argument("--versions", nargs="+", default=VERSIONS)
    parser.add_argument("--keep")
    options = parser.parse_args()
    with tempfile.TemporaryDirectory() as scratch:
        folder = options.keep or scratch
        os.makedirs(folder, exist_ok=True)
        llvms = [Llvm(version, folder) for version in options.versions if shutil.which(f"llc-{version}") and shutil.which(f"clang-{version}")]
        table = [list(facts(llvm)) for llvm in llvms]
        print("| LLVM | " + " | ".join(llvm.version for llvm in llvms) + " |\n|---|" + "---|" * len(llvms))
        for rows in zip(*table):
            print(f"| {rows[0][0]} | " + " | ".join(answer for _, answer in rows) + " |")
        threads = 0
        for number in range(options.seed, options.seed + options.modules):
            base = os.path.join(folder, f"m{number}")
            agree.write(base, agree.Module(random.Random(number)))
            threads += compare(options.dgc, llvms, base)
    print(f"\n{options.modules} modules, {threads} threads, LLVM {', '.join(llvm.version for llvm in llvms)}: each returned what dgc replay says")


if __name__ == "__main__":
    main()
