#!/usr/bin/env python3
"""Looks for a number that examples/pipeline/abstract.py does not cover, and for a module of which it makes a wrong `yes`.

    abstraction.py DGC [--modules N] [--seed S] [--keep FOLDER]

Draws N modules: those of `agree.py`, with forms that dgc does not read in three of four of them (division, shifts, floats, functions that
are only declared, constant data, locals of arrays, intrinsics, atomic steps, wide integers, vectors). LLVM's own code of each function is
run, and writes each number of such a form. Then `dgc replay` makes a run of the abstracted text in which a late thread @any.set.iN stores
each of these numbers right before it is read, in the middle of a handshake. It has to return what LLVM's code returns. Modules have typed
pointers and LLVM 14, or opaque ones and the newest LLVM that is installed. Before that come small modules that break a rule behind a form
that is not read: none may get a `yes`. Ends with 1 at the first difference.

To install: `apt-get install clang-14 clang-22`.
"""
import argparse
import concurrent.futures
import json
import os
import random
import re
import shutil
import subprocess
import sys
import tempfile

import abstraction_traps
import agree

TOP = os.path.dirname(os.path.dirname(os.path.abspath(__file__)))
sys.path.insert(0, os.path.join(TOP, "examples", "pipeline"))

import abstract  # noqa: E402
import ir  # noqa: E402
import shapes  # noqa: E402

STEPS = 6000
MOST = 63
FUNCTIONS = 5
POINTER = re.compile(r"(?:i\d+|%L\d+|double|\[\d+ x i\d+\])\*+")

DATA = """@table = private constant [8 x i32] [i32 3, i32 -1, i32 4, i32 1, i32 -5, i32 9, i32 2, i32 6]
@words = private unnamed_addr constant [6 x i8] c"a;\\22b%\\00", align 1
@real = global double 1.5
@held = global i64 5
@other = global i64 -7
declare i64 @ext_mix(i64, i64)
declare double @ext_half(double)
declare void @ext_print(i8*, ...)
declare i8* @ext_name(i32)
declare void @ext_fill(i32*)
declare i32 @llvm.smax.i32(i32, i32)
declare i64 @llvm.umin.i64(i64, i64)
declare i64 @llvm.smin.i64(i64, i64)
declare i16 @llvm.bswap.i16(i16)
declare i32 @llvm.ctpop.i32(i32)
declare i64 @llvm.abs.i64(i64, i1)
declare i8 @llvm.sadd.sat.i8(i8, i8)
declare { i32, i1 } @llvm.umul.with.overflow.i32(i32, i32)
declare double @llvm.fabs.f64(double)
declare double @llvm.fmuladd.f64(double, double, double)
declare i64 @llvm.fptosi.sat.i64.f64(double)
define i8 @peek(i8* %p) {
  %v = load i8, i8* %p
;! %l = zext i8 %v to i64
;! call void @log(i32 8, i64 %l)
  ret i8 %v
}
define i8* @pick(i1 %c) {
  br i1 %c, label %one, label %two
one:
  ret i8* getelementptr ([6 x i8], [6 x i8]* @words, i64 0, i64 1)
two:
  ret i8* getelementptr ([6 x i8], [6 x i8]* @words, i64 0, i64 3)
}
"""
RUNTIME = """#include <inttypes.h>
#include <stdio.h>
#include <stdlib.h>
#include <string.h>
void *dg_alloc(int32_t layout) { (void)layout; return calloc(1, 65536); }
void dg_safepoint(void) {}
void log_(uint32_t bits, uint64_t value) __asm__("log");
void log_(uint32_t bits, uint64_t value) { printf("%u %" PRIu64 "\\n", bits, value); }
uint64_t ext_mix(uint64_t a, uint64_t b) { return (a ^ (b << 7)) * 0x9E3779B97F4A7C15u; }
double ext_half(double x) { return x / 2; }
void ext_print(const char *form, ...) { (void)form; }
const char *ext_name(uint32_t n) { return "name;of\\"it" + (n & 7); }
void ext_fill(uint32_t *x) { *x = *x * 3 + 1; }
"""


class Difference(Exception):
    """What differs."""


class Function(agree.Function):
    """A function with forms that dgc does not read. A line that begins with `;!` is one of LLVM's text alone."""

    def log(self, name, kind):
        """Tells LLVM's code to write a number that the abstracted text does not compute."""
        self.cost += 20 * self.times
        self.names += 1
        if kind == "double":
            self.lines.append(f";! %log{self.names} = bitcast double {name} to i64")
            kind, name = 64, f"%log{self.names}"
        elif kind < 64:
            self.lines.append(f";! %log{self.names} = zext i{kind} {name} to i64")
            name = f"%log{self.names}"
        self.lines.append(f";! call void @log(i32 {kind}, i64 {name})")

    def made(self, code, bits):
        """An integer of a form that is not read."""
        name = self.give(code, bits)
        self.log(name, bits)
        self.mix(name, bits)
        return name

    def divide(self):
        bits = self.draw.choice([8, 13, 16, 32, 33, 64])
        word = self.draw.choice(["udiv", "sdiv", "urem", "srem"])
        if self.draw.random() < 0.5:
            limit = self.draw.choice([3, 7, 8, 31, 64, 100])
            code = f"{word} i{bits} {self.integer(bits)}, {limit}"
            if word == "urem" and limit & (limit - 1) == 0:
                self.mix(self.give(code, bits), bits)
            else:
                self.made(code, bits)
            return
        by = self.give(f"and i{bits} {self.integer(bits)}, {(1 << (bits - 1)) - 1}")
        self.made(f"{word} i{bits} {self.integer(bits)}, {self.give(f'or i{bits} {by}, 1')}", bits)

    def shift(self):
        bits, word = self.draw.choice([7, 8, 16, 24, 32, 64]), self.draw.choice(["shl", "lshr", "ashr"])
        if self.draw.random() < 0.5:
            code = f"{word} i{bits} {self.integer(bits)}, {self.draw.randrange(bits)}"
            if word == "shl":
                self.mix(self.give(code, bits), bits)
            else:
                self.made(code, bits)
            return
        by = self.give(f"and i{bits} {self.integer(bits)}, {(1 << (bits.bit_length() - 1)) - 1 if bits & (bits - 1) == 0 else 3}")
        if bits & (bits - 1) == 0:
            by = self.give(f"and i{bits} {by}, {bits - 1}")
        self.made(f"{word} i{bits} {self.integer(bits)}, {by}", bits)

    def real(self):
        """A double from an integer, or from the global."""
        if self.draw.random() < 0.3:
            return self.give("load double, double* @real")
        bits = self.draw.choice([8, 32, 64])
        name = self.give(f"{self.draw.choice(['sitofp', 'uitofp'])} i{bits} {self.integer(bits)} to double")
        self.log(name, "double")
        return name

    def floats(self):
        one = self.real()
        choice = self.draw.randrange(8)
        if choice == 0:
            two = self.give(f"f{self.draw.choice(['add', 'sub', 'mul'])} double {one}, {self.draw.choice(['2.5', '-1.0e+00', '0x3FD5555555555555'])}")
            self.log(two, "double")
            self.put(f"store double {two}, double* @real")
        elif choice == 1:
            two = self.give(f"fneg double {one}")
            bits = self.give(f"bitcast double {two} to i64", 64)
            self.mix(bits, 64)
        elif choice == 2:
            two = self.give(f"call double @llvm.fabs.f64(double {one})")
            self.put(f"store double {two}, double* @real")
        elif choice == 3:
            self.made(f"fcmp {self.draw.choice(['olt', 'oge', 'une', 'ord'])} double {one}, 1.0e+02", 1)
        elif choice == 4:
            self.made(f"call i64 @llvm.fptosi.sat.i64.f64(double {one})", 64)
        elif choice == 5:
            two = self.give(f"call double @ext_half(double {one})")
            self.log(two, "double")
            three = self.give(f"select i1 {self.integer(1)}, double {two}, double 4.25")
            self.mix(self.give(f"bitcast double {three} to i64", 64), 64)
        elif choice == 6:
            two = self.give(f"call double @llvm.fmuladd.f64(double {one}, double 3.0, double {one})")
            self.log(two, "double")
            self.mix(self.give(f"bitcast double {two} to i64", 64), 64)
        else:
            self.put("store double 0x400921FB54442D18, double* @real")

    def foreign(self):
        choice = self.draw.randrange(6)
        if choice == 0:
            self.made(f"call i64 @ext_mix(i64 {self.integer(64)}, i64 {self.integer(64)})", 64)
        elif choice == 1:
            self.put(f"call void (i8*, ...) @ext_print(i8* getelementptr ([6 x i8], [6 x i8]* @words, i64 0, i64 0), i64 {self.integer(64)})")
        elif choice == 2:
            name = self.give(f"call i8* @ext_name(i32 {self.integer(32)})")
            self.made(f"load i8, i8* {name}", 8)
        elif choice == 3:
            self.put(f"store i32 {self.integer(32)}, i32* %filled")
            self.put("call void @ext_fill(i32* %filled)")
            self.made("load i32, i32* %filled", 32)
        elif choice == 4:
            name = self.give(f"call i8* @pick(i1 {self.integer(1)})")
            self.values.append((self.give(f"call i8 @peek(i8* {name})"), 8))
        else:
            self.made(f"freeze i32 {self.integer(32)}", 32)

    def look_up(self):
        if self.draw.random() < 0.5:
            index = self.give(f"and i64 {self.integer(64)}, 7")
            one = self.give(f"getelementptr [8 x i32], [8 x i32]* @table, i64 0, i64 {index}")
            two = self.give(f"getelementptr [8 x i32], [8 x i32]* @table, i64 0, i64 {self.draw.randrange(8)}")
            self.made(f"load i32, i32* {self.give(f'select i1 {self.integer(1)}, i32* {one}, i32* {two}')}", 32)
            return
        index = self.give(f"and i64 {self.integer(64)}, 3")
        place = self.give(f"getelementptr [4 x i64], [4 x i64]* %local, i64 0, i64 {index}")
        self.put(f"store i64 {self.integer(64)}, i64* {place}")
        self.made(f"load i64, i64* {place}", 64)

    def intrinsic(self):
        choice = self.draw.randrange(9)
        if choice == 0:
            self.mix(self.give(f"call i32 @llvm.smax.i32(i32 {self.integer(32)}, i32 {self.integer(32)})", 32), 32)
        elif choice == 1:
            self.mix(self.give(f"call i64 @llvm.umin.i64(i64 {self.integer(64)}, i64 {self.draw.choice([3, 15, 1000])})", 64), 64)
        elif choice == 2:
            self.mix(self.give(f"call i64 @llvm.smin.i64(i64 {self.integer(64)}, i64 {self.integer(64)})", 64), 64)
        elif choice == 3:
            self.made(f"call i16 @llvm.bswap.i16(i16 {self.integer(16)})", 16)
        elif choice == 4:
            self.made(f"call i32 @llvm.ctpop.i32(i32 {self.integer(32)})", 32)
        elif choice == 5:
            self.made(f"call i64 @llvm.abs.i64(i64 {self.integer(64)}, i1 false)", 64)
        elif choice == 6:
            self.made(f"call i8 @llvm.sadd.sat.i8(i8 {self.integer(8)}, i8 {self.integer(8)})", 8)
        elif choice == 7:
            both = self.give(f"call {{ i32, i1 }} @llvm.umul.with.overflow.i32(i32 {self.integer(32)}, i32 {self.integer(32)})")
            self.made(f"extractvalue {{ i32, i1 }} {both}, 1", 1)
            self.made(f"extractvalue {{ i32, i1 }} {both}, 0", 32)
        else:
            pair = self.give(f"insertelement <2 x i32> <i32 1, i32 2>, i32 {self.integer(32)}, i32 0")
            more = self.give(f"add <2 x i32> {pair}, <i32 5, i32 6>")
            self.made(f"extractelement <2 x i32> {more}, i32 {self.draw.randrange(2)}", 32)

    def atomic(self):
        choice = self.draw.randrange(5)
        if choice == 0:
            self.mix(self.give("load atomic i64, i64* @held seq_cst, align 8", 64), 64)
        elif choice == 1:
            self.put(f"store atomic i64 {self.integer(64)}, i64* @held release, align 8")
        elif choice == 2:
            value = self.integer(64)
            old = self.made(f"atomicrmw add i64* @held, i64 {value} seq_cst", 64)
            self.names += 1
            self.lines.append(f";! %new{self.names} = add i64 {old}, {value}")
            self.log(f"%new{self.names}", 64)
        elif choice == 3:
            value, wanted = self.integer(64), self.draw.choice([self.integer(64), "5", "-7"])
            both = self.give(f"cmpxchg i64* @other, i64 {wanted}, i64 {value} seq_cst seq_cst")
            self.lines.append(f";! {both}.a = extractvalue {{ i64, i1 }} {both}, 0")
            self.lines.append(f";! {both}.b = extractvalue {{ i64, i1 }} {both}, 1")
            self.lines.append(f";! {both}.c = select i1 {both}.b, i64 {value}, i64 {both}.a")
            self.log(f"{both}.c", 64)
            self.made(f"extractvalue {{ i64, i1 }} {both}, 0", 64)
            self.made(f"extractvalue {{ i64, i1 }} {both}, 1", 1)
        else:
            self.put("fence seq_cst")
            self.mix(self.give("load i64, i64* @other", 64), 64)
            self.made("load volatile i64, i64* @held", 64)

    def wide(self):
        one = self.give(f"zext i64 {self.integer(64)} to i128")
        self.lines.append(";! call void @log(i32 64, i64 0)")
        two = self.give(f"mul i128 {one}, {self.draw.choice(['3', '18446744073709551629'])}")
        self.lines.append(";! call void @log(i32 64, i64 1)")
        three = self.give(f"lshr i128 {two}, 60")
        self.lines.append(";! call void @log(i32 64, i64 2)")
        self.made(f"trunc i128 {three} to i64", 64)

    def call(self):
        self.cost += 20 * self.times
        super().call()

    def body(self, depth):
        pieces = [self.divide, self.shift, self.floats, self.foreign, self.look_up, self.intrinsic, self.atomic, self.wide]
        for _ in range(self.draw.randrange(1, 4)):
            if self.module.is_plain or self.times > 4:
                break
            self.draw.choice(pieces)()
        super().body(depth)

    def text(self):
        text = super().text()
        if self.module.is_plain:
            return text
        slots = "  %filled = alloca i32\n  %local = alloca [4 x i64]\n  store i32 0, i32* %filled\n"
        for at in range(4):
            slots += f"  %local{at} = getelementptr [4 x i64], [4 x i64]* %local, i64 0, i64 {at}\n  store i64 {at}, i64* %local{at}\n"
        return text.replace("  store i64 0, i64* %mix\n", slots + "  store i64 0, i64* %mix\n", 1)


class Module(agree.Module):
    """A module of some functions, with forms that dgc does not read or without."""

    def __init__(self, draw, is_plain):
        self.is_plain = is_plain
        super().__init__(draw)

    def function(self, number):
        if number >= FUNCTIONS:
            return self.functions[0]
        draw = self.draw
        parameters = [draw.choice(agree.WIDTHS) for _ in range(draw.randrange(0, 4))]
        it = Function(self, f"f{number}", parameters, draw.choice(agree.WIDTHS))
        it.slots = [(f"%s{n}", draw.choice(agree.WIDTHS + [("ref", draw.randrange(len(self.layouts)))] * 6)) for n in range(draw.randrange(1, 4))]
        for name, kind in it.slots:
            it.put(f"store {agree.text_of(kind)} {it.operand(kind)}, {agree.text_of(kind)}* {name}")
        it.body(2)
        last = it.operand(it.result)
        part = it.mixed()
        if it.result < 64:
            part = it.give(f"trunc i64 {part} to i{it.result}")
        it.put(f"ret i{it.result} {it.give(f'xor i{it.result} {last}, {part}')}")
        return it

    def text(self):
        self.functions = list(dict.fromkeys(self.functions))
        text = super().text()
        at = text.index("define ")
        return text if self.is_plain else text[:at] + DATA + text[at:]


def run_of(llvm, base, text, starts):
    """Builds LLVM's code of a module, with a function for each start."""
    code = re.sub(r"^;! ", "  ", text, flags=re.M) + "declare void @log(i32, i64)\n"
    for n, (it, given) in enumerate(starts):
        pairs = ", ".join(f"i{kind} {value if kind > 1 else ['false', 'true'][value]}" for kind, value in zip(it.parameters, given))
        code += f"define i64 @run{n}() {{\n  %r = call i{it.result} @{it.name}({pairs})\n"
        code += f"  %z = zext i{it.result} %r to i64\n  ret i64 %z\n}}\n" if it.result < 64 else "  ret i64 %r\n}\n"
    with open(base + ".run.ll", "w") as out:
        out.write(code)
    with open(base + ".c", "w") as out:
        out.write(RUNTIME + "".join(f"uint64_t run{n}(void);\n" for n in range(len(starts))))
        out.write("int main(int count, char **words) {\n  int n = count > 1 ? atoi(words[1]) : 0;\n")
        out.write("".join(f'  if (n == {n}) printf("returned %" PRIu64 "\\n", run{n}());\n' for n in range(len(starts))) + "  return 0;\n}\n")
    subprocess.run([f"clang-{llvm}", "-w", "-O0", "-o", base + ".out", base + ".run.ll", base + ".c"], check=True)


def abstracted(base, text):
    """What abstract.py writes of a module, and what it left."""
    whole = abstract.Abstraction(ir.read(text))
    found = whole.text()
    with open(base + ".any.ll", "w") as out:
        out.write(found)
    return found, whole.left


class Replay:
    """A run of the abstracted text in which late threads store the numbers that LLVM's code wrote."""

    def __init__(self, dgc, base, text, start, numbers):
        self.dgc, self.base, self.start, self.numbers = dgc, base, start, numbers
        names = re.findall(r"^(@\S+) = ", text, re.M)
        self.places = {at: name for at, name in enumerate(names) if name.startswith("@any.")}
        self.pools = [f"pool {name} 1000" for name in re.findall(r"^%(L\d+) = type", text, re.M)]
        self.words = [base + ".any.ll", base + ".trace"]
        if re.search(r"\bptr\b", text):
            self.words += ["--shapes", base + ".shapes"]

    def write(self, lates, steps):
        it, given = self.start
        lines = ["trace 2", *self.pools, " ".join(["start", "@" + it.name, *map(str, given)]), *lates, "steps", "c 2", *steps, f"t 0 {STEPS}", "end"]
        with open(self.base + ".trace", "w") as out:
            out.write("\n".join(lines) + "\n")

    def any_reads(self):
        """The steps of thread 0 that read a number that is not computed: how many steps of the thread come before, and of which global."""
        done = subprocess.run([self.dgc, "replay", *self.words, "--json", self.base + ".json"], capture_output=True, text=True)
        if not done.stdout.startswith("sound"):
            return done.stdout.splitlines()[:1] or [done.stderr], []
        reads, count = [], 0
        with open(self.base + ".json") as file:
            for line in file:
                if '"thread":0' not in line.replace(" ", "") or '"step"' not in line:
                    continue
                step = json.loads(line)
                if step["kind"] != "step" or step["event"] == "nothing":
                    continue
                if step["event"] == "read" and step["cell"] == 0 and step["word"] in self.places:
                    reads.append((count, self.places[step["word"]]))
                count += 1
        return done.stdout.splitlines(), reads

    def returned(self):
        """What the run says of thread 0, or why there is none."""
        lates, before = [f"late @any.set.i{bits} {value}" for bits, value in self.numbers], []
        while True:
            steps, done = [], 0
            for at, place in enumerate(before[: len(lates)]):
                steps += [f"t 0 {place - done}", f"t {at + 1} 12", "t 0 1"]
                done = place + 1
            self.write(lates, steps)
            said, reads = self.any_reads()
            if [place for place, _ in reads] == before:
                break
            before = [place for place, _ in reads]
        wanted = [f"@any.i{bits}" for bits, _ in self.numbers]
        if [name for _, name in reads] != wanted:
            return f"{len(reads)} numbers are read where LLVM's code wrote {len(wanted)}: {said[:2]}"
        return next((line for line in said if line.startswith("t 0 ")), said[0])


def compare(dgc, llvm, base, module):
    """Compares each function that a thread may begin at. Gives how many were compared, and how many numbers were set."""
    text, starts, shapes = module.text(), agree.begun(module), None
    if llvm != "14":
        shapes = shapes_of(module)
        text = POINTER.sub("ptr", text)
        with open(base + ".shapes", "w") as out:
            out.write(shapes)
    abstract, left = abstracted(base, text)
    if left:
        raise Difference(f"{base}: left: {left[0]}")
    run_of(llvm, base, text, starts)
    compared = numbers_set = 0
    for n, start in enumerate(starts):
        printed = subprocess.run([base + ".out", str(n)], capture_output=True, text=True).stdout.splitlines()
        numbers = [tuple(map(int, line.split())) for line in printed[:-1]]
        if len(numbers) > MOST:
            continue
        said = Replay(dgc, base, abstract, start, numbers).returned()
        if said != f"t 0 {printed[-1]}":
            raise Difference(f"{base}: @{start[0].name}: LLVM's code {printed[-1]}, dgc {said}")
        compared, numbers_set = compared + 1, numbers_set + len(numbers)
    return compared, numbers_set


def answer(dgc, base, text):
    """What abstract.py and dgc say of a module with opaque pointers."""
    try:
        found, _ = abstracted(base, text)
        lines = "\n".join(shapes.shapes_of(found)) + "\n"
    except (ir.Fault, SystemExit) as fault:
        return str(fault)
    with open(base + ".shapes", "w") as out:
        out.write(lines)
    made = subprocess.run([dgc, "make", base + ".any.ll", "--shapes", base + ".shapes", "--why"], capture_output=True, text=True)
    if made.returncode:
        return (made.stdout + made.stderr).strip().splitlines()[-1]
    if re.search(r"^function @any\S* \S+\nparam", made.stdout, re.M):
        return "make promises something of a number that is not computed"
    with open(base + ".cert", "w") as out:
        out.write(made.stdout)
    return subprocess.run([dgc, "check", base + ".any.ll", base + ".cert"], capture_output=True, text=True).stdout.strip()


def spring(dgc, folder):
    """Gives for how many modules that break a rule there was no `yes`, and one for each that keeps it; ends at the first other one."""
    count = 0
    for name, broken, kept in abstraction_traps.modules():
        base = os.path.join(folder, "trap")
        if (said := answer(dgc, base, broken)).startswith("yes"):
            sys.exit(f"{name}: {said}, and a rule is broken")
        if not (said := answer(dgc, base, kept)).startswith("yes"):
            sys.exit(f"{name}: {said}, and no rule is broken")
        count += 1
    return count


def words_of(kind):
    if isinstance(kind, int) or kind[0] == "ref":
        return [kind]
    return [word for part in kind[1] for word in words_of(part)] if kind[0] == "struct" else words_of(kind[2]) * kind[1]


def shapes_of(module):
    """The shapes of the module with opaque pointers."""
    lines = ["shapes 1"]
    for n, kinds in enumerate(module.layouts):
        for at, word in enumerate(words_of(("struct", kinds))):
            if not isinstance(word, int):
                lines.append(f"layout L{n} {at} ref L{word[1]}")
    lines += [f"global @g{n} ref L{kind[1]}" for n, kind in enumerate(module.globals) if not isinstance(kind, int)]
    for it in dict.fromkeys(module.functions):
        lines += [f"root @{it.name} {name} ref L{kind[1]}" for name, kind in it.slots if not isinstance(kind, int)]
    return "\n".join(lines) + "\n"


def one(task):
    """Compares one drawn module."""
    dgc, llvms, folder, number = task
    return compare(dgc, llvms[number // 4 % len(llvms)], os.path.join(folder, f"a{number}"), Module(random.Random(number), number % 4 == 3))


def main():
    parser = argparse.ArgumentParser(description=__doc__.split("\n")[0])
    parser.add_argument("dgc", type=os.path.abspath)
    parser.add_argument("--modules", type=int, default=200)
    parser.add_argument("--seed", type=int, default=0)
    parser.add_argument("--keep")
    options = parser.parse_args()
    newest = next((version for version in ("22", "19", "16") if shutil.which(f"clang-{version}")), None)
    llvms = [version for version in ("14", newest) if version and shutil.which(f"clang-{version}")]
    if not llvms:
        sys.exit("no clang: apt-get install clang-14 clang-22")
    with tempfile.TemporaryDirectory() as scratch:
        folder = options.keep or scratch
        os.makedirs(folder, exist_ok=True)
        traps = spring(options.dgc, folder)
        print(f"{traps} modules that break a rule: no yes; the same {traps} without the fault: yes", flush=True)
        tasks = [(options.dgc, llvms, folder, number) for number in range(options.seed, options.seed + options.modules)]
        with concurrent.futures.ProcessPoolExecutor() as pool:
            try:
                found = list(pool.map(one, tasks))
            except Difference as difference:
                pool.shutdown(cancel_futures=True)
                sys.exit(str(difference))
    compared, numbers = sum(some for some, _ in found), sum(some for _, some in found)
    plain = sum(number % 4 == 3 for *_, number in tasks)
    print(f"{options.modules} modules, {plain} of them without such forms, LLVM {' and '.join(llvms)}: {compared} functions, {numbers} numbers set, no difference")


if __name__ == "__main__":
    main()
