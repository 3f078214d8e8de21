#!/usr/bin/env python3
"""Compares what the operations and the functions of the wide forms give in `dgc replay` with what LLVM's own code of the same text gives.

    agree_wide.py DGC [--draws N] [--seed S] [--only WORD ..] [--keep FOLDER]

For each of shl, lshr, ashr, udiv, sdiv, urem, srem and freeze, and of llvm.smax, smin, umax, umin, abs, ctpop, ctlz, cttz, bswap,
bitreverse, fshl and fshr, and for a call of a function outside of the module, one function for each of many widths draws operands, computes and mixes what it gets into what it returns:
N draws for each word, with 0, 1, -1 and the least number among them. The word `outside` is a call of a function outside of the module: `replay` takes what it
gives from the lines `values` of the trace, and LLVM's code from a text that gives the same numbers, and then 0. No draw is a case that LLVM leaves open: a shift is by less
than the width, no divisor is 0, and the least number is not divided by -1. The flag of abs, ctlz and cttz is false; with the words
abs-true, ctlz-true and cttz-true it is true, and neither the least number nor 0 is drawn where LLVM excludes it. `clang -O0` builds the
text. Operations on floating point numbers are none of these words: each gives any number. Prints the first draw that differs, and ends
with 1 then. For use by hand.
"""
import argparse
import os
import random
import subprocess
import sys
import tempfile

OPERATIONS = ["shl", "lshr", "ashr", "udiv", "sdiv", "urem", "srem", "freeze"]
# How many operands each function of integers takes; the words with a flag take one, and the flag.
FUNCTIONS = {"smax": 2, "smin": 2, "umax": 2, "umin": 2, "abs": 1, "abs-true": 1, "ctpop": 1, "ctlz": 1, "ctlz-true": 1, "cttz": 1,
             "cttz-true": 1, "bswap": 1, "bitreverse": 1, "fshl": 3, "fshr": 3}
FLAGGED = ["abs", "ctlz", "cttz"]
OUTSIDE = "outside"
WORDS = OPERATIONS + list(FUNCTIONS) + [OUTSIDE]
SHIFTS, SIGNED = ["shl", "lshr", "ashr"], ["sdiv", "srem"]
WIDTHS = [1, 2, 3, 7, 8, 13, 16, 24, 31, 32, 33, 48, 63, 64]
FACTOR, ADDEND = 6364136223846793005, 1442695040888963407
STEPS = 80


def widths_of(word):
    """A number of one bit has no signed divisor: 1 is -1 there, and the least number. Bytes change places in pairs."""
    if word == "bswap":
        return [bits for bits in WIDTHS if bits % 16 == 0]
    return [bits for bits in WIDTHS if bits > 1 or word not in SIGNED]


def written(bits, value):
    """A constant of this width."""
    return value if bits > 1 else "true" if value % 2 else "false"


def drawn(name, bits):
    """The lines that draw an operand: from each eight draws about four are 0, 1, -1 or the least number."""
    least = -(1 << (bits - 1))
    cut = f"  %{name}c = trunc i64 %{name}x to i{bits}" if bits < 64 else f"  %{name}c = add i64 %{name}x, 0"
    lines = [f"  %{name}m = mul i64 %{name}s, {FACTOR}", f"  %{name}n = add i64 %{name}m, {ADDEND}",
             f"  %{name}h = lshr i64 %{name}n, 33", f"  %{name}x = xor i64 %{name}h, %{name}n", cut,
             f"  %{name}k = lshr i64 %{name}n, 61"]
    last = f"%{name}c"
    for number, value in enumerate([0, 1, -1, least]):
        lines += [f"  %{name}t{number} = icmp eq i64 %{name}k, {number}",
                  f"  %{name}v{number} = select i1 %{name}t{number}, i{bits} {written(bits, value)}, i{bits} {last}"]
        last = f"%{name}v{number}"
    return lines, last


def guarded(word, bits, one, two):
    """The lines that keep a draw from a case that LLVM leaves open, and the second operand."""
    if word in SHIFTS:
        return ([f"  %g = urem i{bits} {two}, {bits}"], "%g") if bits > 1 else ([], "false")
    if word == "freeze":
        return [], None
    single = "true" if bits == 1 else "1"
    lines = [f"  %z = icmp eq i{bits} {two}, {0 if bits > 1 else 'false'}", f"  %g = select i1 %z, i{bits} {single}, i{bits} {two}"]
    if word not in SIGNED:
        return lines, "%g"
    return lines + [f"  %l = icmp eq i{bits} {one}, {-(1 << (bits - 1))}", f"  %w = icmp eq i{bits} %g, -1",
                    "  %o = and i1 %l, %w", f"  %y = select i1 %o, i{bits} 1, i{bits} %g"], "%y"


def named(word, bits):
    """The name of a function of integers."""
    return f"@llvm.{word.split('-')[0]}.i{bits}"


def declared(word, bits):
    """The line that declares what a word calls, if it calls something."""
    if word == OUTSIDE:
        return f"declare i{bits} @given{bits}(i{bits})\n"
    if word not in FUNCTIONS:
        return ""
    types = [f"i{bits}"] * FUNCTIONS[word] + (["i1"] if word.split("-")[0] in FLAGGED else [])
    return f"declare i{bits} {named(word, bits)}({', '.join(types)})\n"


def called(word, bits, operands):
    """The lines that keep a draw from a case that LLVM leaves open, and the call of a function of integers."""
    guard, flag, taken = [], [], operands[:FUNCTIONS[word]]
    if word.split("-")[0] in FLAGGED:
        flag = ["i1 false"]
    if word.endswith("-true"):
        left, other = (-(1 << (bits - 1)), 0) if word == "abs-true" else (0, 1)
        guard = [f"  %z = icmp eq i{bits} {taken[0]}, {written(bits, left)}",
                 f"  %g = select i1 %z, i{bits} {written(bits, other)}, i{bits} {taken[0]}"]
        flag, taken = ["i1 true"], ["%g"]
    if len(taken) == 3 and bits & (bits - 1):
        # The code of LLVM 14 counts bits of a wider register into the distance. A mask clears them, and leaves distances past the width.
        guard = [f"  %g = and i{bits} {taken[2]}, {(1 << (bits - 1)) - 1}"]
        taken = taken[:2] + ["%g"]
    arguments = ", ".join([f"i{bits} {operand}" for operand in taken] + flag)
    return guard, f"call i{bits} {named(word, bits)}({arguments})"


def computed(word, bits, operands):
    """The same of any word: the lines before, and what is computed."""
    if word in FUNCTIONS:
        return called(word, bits, operands)
    one, two, _ = operands
    if word == OUTSIDE:
        return [], f"call i{bits} @given{bits}(i{bits} {one})"
    guard, other = guarded(word, bits, one, two)
    return guard, f"freeze i{bits} {one}" if word == "freeze" else f"{word} i{bits} {one}, {other}"


def function(word, bits):
    """A loop of as many draws as its second argument says."""
    (first, one), (second, two), (third, three) = (drawn(name, bits) for name in "abc")
    guard, given = computed(word, bits, [one, two, three])
    wide = f"  %r = zext i{bits} %q to i64" if bits < 64 else "  %r = add i64 %q, 0"
    lines = [f"define i64 @f{bits}(i64 %seed, i64 %turns) {{", "entry:", "  br label %head", "head:",
             "  %i = phi i64 [ 0, %entry ], [ %j, %head ]", "  %as = phi i64 [ %seed, %entry ], [ %cn, %head ]",
             "  %mix = phi i64 [ 0, %entry ], [ %more, %head ]"]
    lines += first + ["  %bs = add i64 %an, 0"] + second + ["  %cs = add i64 %bn, 0"] + third + guard
    lines += [f"  %q = {given}", wide, "  %by = mul i64 %mix, 1099511628211", "  %more = xor i64 %by, %r",
              "  %j = add i64 %i, 1", "  %c = icmp ult i64 %j, %turns", "  br i1 %c, label %head, label %out", "out:",
              "  ret i64 %more", "}"]
    return declared(word, bits) + "\n".join(lines) + "\n"


def numbers(seed, bits, turns):
    """What a function outside gives: as many numbers as half of the calls take."""
    drawn_by = random.Random(seed * 100 + bits)
    return [drawn_by.choice([0, 1, (1 << 64) - 1, drawn_by.getrandbits(64), drawn_by.getrandbits(64)]) for _ in range(max(1, turns // 2))]


def giving(bits):
    """The text of a function that gives the next one of them, as a number of this width."""
    cut = f"  %r = trunc i64 %v to i{bits}" if bits < 64 else "  %r = add i64 %v, 0"
    return (f"declare i64 @next{bits}()\ndefine i{bits} @given{bits}(i{bits} %ignored) {{\nentry:\n"
            f"  %v = call i64 @next{bits}()\n{cut}\n  ret i{bits} %r\n}}\n")


def listed(bits, values):
    """What gives these numbers, and then 0, in C."""
    return (f"static const uint64_t values{bits}[] = {{{', '.join(f'{value}u' for value in values)}}};\nuint64_t next{bits}(void) {{\n"
            f"  static unsigned at;\n  return at < {len(values)} ? values{bits}[at++] : 0;\n}}\n")


def returned(dgc, base, word, seed, turns):
    """What each width returns after so many draws, by `dgc replay` and by LLVM's code."""
    widths = widths_of(word)
    with open(base + ".ll", "w") as out:
        out.write("".join(function(word, bits) for bits in widths))
    with open(base + ".trace", "w") as out:
        out.write("trace 1\n")
        for bits in widths:
            out.write(f"start @f{bits} {seed} {turns}\n")
            if word == OUTSIDE:
                out.write("values " + " ".join(map(str, numbers(seed, bits, turns))) + "\n")
        out.write("steps\n")
        out.write("".join(f"t {n} {STEPS * turns + 10}\n" for n in range(len(widths))) + "end\n")
    with open(base + ".c", "w") as out:
        out.write("#include <inttypes.h>\n#include <stdio.h>\n")
        out.write("".join(listed(bits, numbers(seed, bits, turns)) for bits in widths if word == OUTSIDE))
        out.write("".join(f"uint64_t f{bits}(uint64_t, uint64_t);\n" for bits in widths) + "int main(void) {\n")
        out.write("".join(f'  printf("t {n} returned %" PRIu64 "\\n", f{bits}({seed}u, {turns}u));\n'
                          for n, bits in enumerate(widths)) + "  return 0;\n}\n")
    with open(base + ".given.ll", "w") as out:
        out.write("".join(giving(bits) for bits in widths if word == OUTSIDE))
    subprocess.run(["clang", "-w", "-O0", "-o", base + ".out", base + ".ll", base + ".given.ll", base + ".c"], check=True)
    replay = [dgc, "replay", base + ".ll", base + ".trace", "--forms", "wide"]
    said = subprocess.run(replay, capture_output=True, text=True)
    made = subprocess.run([base + ".out"], capture_output=True, text=True, check=True)
    threads = [line for line in said.stdout.splitlines() if line.startswith("t ")]
    if len(threads) != len(widths):
        sys.exit(f"{word}: dgc prints {(said.stdout + said.stderr)[:200]!r}")
    return threads, made.stdout.splitlines()


def first_difference(dgc, base, word, seed, turns):
    """The first draw after which the two differ, with its width and what they return; or nothing."""
    ours, theirs = returned(dgc, base, word, seed, turns)
    differing = [n for n, pair in enumerate(zip(ours, theirs)) if pair[0] != pair[1]]
    if not differing:
        return None
    at, low, high = differing[0], 0, turns
    while high - low > 1:
        middle = (low + high) // 2
        ours, theirs = returned(dgc, base, word, seed, middle)
        low, high = (middle, high) if ours[at] == theirs[at] else (low, middle)
    ours, theirs = returned(dgc, base, word, seed, high)
    return f"{word} i{widths_of(word)[at]}, draw {high}: dgc: {ours[at]}, LLVM's code: {theirs[at]}"


def main():
    parser = argparse.ArgumentParser(description=__doc__.split("\n")[0])
    parser.add_argument("dgc")
    parser.add_argument("--draws", type=int, default=100000)
    parser.add_argument("--seed", type=int, default=1)
    parser.add_argument("--only", nargs="*", default=WORDS)
    parser.add_argument("--keep", default=None)
    options = parser.parse_args()
    differences = []
    with tempfile.TemporaryDirectory() as scratch:
        folder = options.keep or scratch
        os.makedirs(folder, exist_ok=True)
        for word in options.only:
            # A trace makes at most ten million steps.
            turns = min(-(-options.draws // len(widths_of(word))), 9000000 // (STEPS * len(widths_of(word))))
            parts = -(-options.draws // (turns * len(widths_of(word))))
            for part in range(parts):
                found = first_difference(options.dgc, os.path.join(folder, word), word, options.seed + part, turns)
                if found:
                    differences.append(found)
                    break
            else:
                print(f"{word}: {parts * turns * len(widths_of(word))} draws, no difference")
    for difference in differences:
        print(difference)
    sys.exit(1 if differences else 0)


if __name__ == "__main__":
    main()
