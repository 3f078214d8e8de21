#!/usr/bin/env python3
"""Looks for texts that `dgc check` accepts and LLVM's reader or verifier refuses.

    mutants.py DGC [--mutants N] [--seed S]

Takes modules with certificates that are accepted (those of generate.py and of examples/swap), takes out, doubles,
exchanges or replaces one or two tokens of the module, and hands it to `dgc check` and to `llvm-as`. Prints what
changed in each text that dgc accepts and LLVM refuses, how often the two agree, and what dgc says of texts that
LLVM alone takes, with counts. Three kinds of the first are meant: what docs/TEXT.md reads without effect, a runtime
function that is declared with other types and never called, and a phi with one entry for a block from which a switch
leads to it twice. For use by hand.
"""
import argparse
import collections
import difflib
import os
import random
import re
import subprocess
import sys
import tempfile

HERE = os.path.dirname(os.path.abspath(__file__))
TOKEN = re.compile(r'[%@!#$]?"[^"]*"|[%@!#$]?[-a-zA-Z$._0-9]+:?|;[^\n]*|\s+|.')


def sources(folder):
    """The module and the certificate of each text that is changed."""
    found = [tuple(os.path.join(HERE, "..", "examples", "swap", "typed", name) for name in ("barrier.ll", "swap.cert"))]
    for seed in range(20):
        base = os.path.join(folder, f"g{seed}")
        command = [sys.executable, os.path.join(HERE, "generate.py"), "--functions", "3", "--seed", str(seed), base]
        subprocess.run(command, check=True)
        found.append((base + ".ll", base + ".cert"))
    return [(open(module).read(), cert) for module, cert in found]


def kind(token):
    """Which tokens are often allowed in a token's place."""
    return "0" if token[-1].isdigit() and token[0] in "-0123456789" else "a" if token[0].isalpha() else token[0]


def changed(draw, text):
    """The text with one or two of its tokens changed; mostly by another token of the same kind."""
    tokens = TOKEN.findall(text)
    places = [n for n, token in enumerate(tokens) if not token.isspace()]
    for _ in range(draw.randrange(1, 3)):
        here = draw.choice(places)
        if draw.random() < 0.8 and tokens[here]:
            alike = [tokens[n] for n in places if tokens[n] and kind(tokens[n]) == kind(tokens[here])]
            tokens[here] = draw.choice(alike)
            continue
        there = draw.choice(places)
        tokens[here], tokens[there] = draw.choice([
            ("", tokens[there]),
            (f"{tokens[here]} {tokens[here]}", tokens[there]),
            (tokens[there], tokens[here]),
            (tokens[there], tokens[there]),
            (f"{tokens[here]} {tokens[there]}", tokens[there]),
        ])
    return "".join(tokens)


def answer(dgc, module, cert):
    """What dgc says of a module: its word and its code, without names and places."""
    run = subprocess.run([dgc, "check", module, cert], capture_output=True, text=True)
    said = (run.stdout + run.stderr).split()
    codes = [word for word in said if re.fullmatch(r"[KLCY][0-9]+", word)]
    return " ".join(said[:1] + codes[:1])


def main():
    parser = argparse.ArgumentParser(description=__doc__.split("\n")[0])
    parser.add_argument("dgc")
    parser.add_argument("--mutants", type=int, default=2000)
    parser.add_argument("--seed", type=int, default=0)
    options = parser.parse_args()
    draw, refused = random.Random(options.seed), collections.Counter()
    both, neither, taken = 0, 0, 0
    with tempfile.TemporaryDirectory() as folder:
        texts, path = sources(folder), os.path.join(folder, "mutant.ll")
        for _ in range(options.mutants):
            text, cert = draw.choice(texts)
            mutant = changed(draw, text)
            with open(path, "w") as out:
                out.write(mutant)
            said = answer(options.dgc, path, cert)
            read = subprocess.run(["llvm-as", "-o", os.devnull, path], capture_output=True, text=True)
            if read.returncode == 0 and said == "yes":
                both += 1
            elif read.returncode != 0 and said != "yes":
                neither += 1
            elif said == "yes":
                taken += 1
                lines = list(difflib.unified_diff(text.split("\n"), mutant.split("\n"), n=0, lineterm=""))
                print("accepted, and LLVM refuses:", *read.stderr.split("\n")[:2], *lines[3:], sep="\n  ")
            else:
                refused[said] += 1
    print(f"{options.mutants} texts: both take {both}, neither {neither}, dgc alone {taken}")
    for said, count in refused.most_common():
        print(f"  {said}, where LLVM takes the text: {count}")


if __name__ == "__main__":
    main()
