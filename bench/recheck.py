#!/usr/bin/env python3
"""Compares `dgc recheck` with `dgc check` on drawn modules and edits, and times an edit in a large module.

    recheck.py DGC [--modules M] [--edits E] [--seed S] [--functions N] [--timed T] [--runs R]

First it draws M modules, and E edits of each: of code, of a section or of both, some of them wrong. After each edit it puts the
module and the certificate together as text, and runs `dgc check` on them. An edit has to be refused with the code with which that
text is not read; of one that is taken the verdict has to be the one of `dgc check`, and the number of functions that were checked
1, or 1 and the callers where they are told something else. Then it times T edits in a module of N functions: it prints the fastest
of R runs of `dgc check`, the time of one edit, and its share in the check. Ends with status 1 where a line differs. For use by
hand.
"""
import argparse
import os
import random
import re
import subprocess
import sys
import tempfile

import drawn
import generate
from timing import fastest

WRONG = ["another name", "no such function", "two", "cut", "nothing"]


class Text:
    """A module and its certificate as text, by functions."""

    def __init__(self, module, certificate):
        place = module.index("define ")
        self.head, self.names, self.code, self.section = module[:place], [], {}, {}
        for text in re.findall(r"define .*?^\}\n", module[place:], re.S | re.M):
            self.names.append(re.search(r"@(\w+)\(", text)[1])
            self.code[self.names[-1]] = text
        for text in re.findall(r"function .*?^end\n", certificate, re.S | re.M):
            self.section[re.search(r"@(\w+)", text)[1]] = text

    def edited(self, name, code, section):
        """This text with another function or section of this name, where one is given."""
        other = Text.__new__(Text)
        other.head, other.names, other.code, other.section = self.head, self.names, dict(self.code), dict(self.section)
        other.code[name] = self.code[name] if code is None else code
        other.section[name] = self.section[name] if section is None else section
        return other

    def written(self, base):
        """Writes the module and the certificate; returns the paths."""
        paths = base + ".ll", base + ".cert"
        with open(paths[0], "w", encoding="utf-8") as file:
            file.write(self.head + "".join(self.code[name] for name in self.names))
        with open(paths[1], "w", encoding="utf-8") as file:
            file.write("cert 1\n" + "".join(self.section[name] for name in self.names))
        return paths

    def told(self, name):
        """What the callers of a function are told of it: its types, its mark, and what is promised beyond the types."""
        returned, parameters = re.match(r"define (\S+) @\w+\((.*?)\)", self.code[name]).groups()
        types = dict(part.split()[::-1] for part in parameters.split(", ")) if parameters else {}
        types["result"] = returned
        promised = {}
        for line in self.section[name].split("\n"):
            words = line.split()
            if words[:1] == ["param"] or words[:1] == ["result"]:
                which, facts = (words[1], words[2:]) if words[0] == "param" else ("result", words[1:])
                text = " ".join(facts)
                own = re.match(r"%(\w+)\*$", types.get(which, ""))
                promised[which] = sorted(re.sub(rf"\bref {own[1]}\b", "", text).split()) if own else sorted(facts)
        places = {which: place for place, which in enumerate(types)}
        return list(types.values()), self.section[name].split()[2], sorted((places[which], facts) for which, facts in promised.items() if facts)

    def callers(self, name):
        """How many other functions call this one."""
        return sum(other != name and f"@{name}(" in self.code[other].split("\n", 1)[1] for other in self.names)


def changed_lines(draw, text, first):
    """A text with a change in its lines between the first and the last: one is gone, twice there, or after another one."""
    lines = text.rstrip("\n").split("\n")
    if len(lines) - 1 <= first:
        return text
    place = draw.randrange(first, len(lines) - 1)
    change = draw.randrange(3)
    if change == 0:
        del lines[place]
    elif change == 1:
        lines.insert(place, lines[place])
    else:
        lines.insert(draw.randrange(first, len(lines) - 1), lines.pop(place))
    return "\n".join(lines) + "\n"


def changed_code(draw, text, names):
    """Code with a change: of some words, by a call or a safepoint, or of its lines."""
    change = draw.randrange(7)
    called = draw.choice(names)
    if change == 0:
        return text.replace("i32 1", "i32 2", draw.randrange(1, 3))
    if change == 1:
        return text.replace("store %Node* %v", "store %Node* null, %Node** %s0\n  store %Node* %v", 1)
    if change == 2:
        return text.replace("  ret ", "  call void @dg_safepoint()\n  ret ", 1)
    if change == 3 and called.startswith("f"):
        return text.replace("  br label", f"  call void @{called}()\n  br label", 1)
    if change == 4:
        return text.replace("add i64", draw.choice(["sub i64", "sdiv i64", "add i65"]), 1)
    if change == 5:
        return text.replace("entry:\n", f"entry:\n  %narrow = alloca i{draw.randrange(2, 40)}\n", 1)
    return changed_lines(draw, text, 2)


def changed_section(draw, text):
    """A section with a change: of its mark, of a word, by a promise, or of its lines."""
    change = draw.randrange(7)
    if change == 0:
        return text.replace(" may", " none", 1) if " may\n" in text else text.replace(" none", " may", 1)
    if change == 1:
        return text.replace(draw.choice([" nonnull", " fresh", "ref Leaf"]), "", 1)
    if change == 2:
        return text.replace("ref Node", draw.choice(["ref Leaf", "ref None", "i64"]), 1)
    if change == 3 and "@count" in text:
        return text.replace("\n", "\nparam %k below " + draw.choice(["0", "7", "300"]) + "\n", 1)
    if change == 4 and "@take" in text:
        return text.replace("\n", "\nresult " + draw.choice(["ref Node", "ref Leaf", "nonnull"]) + "\n", 1)
    return changed_lines(draw, text, 1)


def drawn_code(draw, name, text, names):
    """Another function of this name, with its section."""
    if name == "count" and draw.random() < 0.5:
        return text.replace("i64 %k)", "i64 %k, i32 %m)") if "i32 %m" not in text else text.replace(", i32 %m)", ")"), "function @count may\nend\n"
    if not name.startswith("f"):
        return text, f"function @{name} {draw.choice(['may', 'none'])}\nend\n"
    count = sum(name.startswith("f") for name in names)
    code, section = drawn.Function(draw, int(name[1:]), count).written(draw.random() < 0.5)
    return code + "\n", section + "\n"


def wrong_edit(draw, name, text):
    """An edit that is wrong by its form, and the code of its fault."""
    kind, part = draw.choice(WRONG), draw.choice(["code", "cert", "both"])
    code, section = text.code[name], text.section[name]
    if kind == "no such function":
        return edit_text(part, "nowhere", code, section), "C3" if part == "cert" else "L5"
    if kind == "another name":
        code, section, fault = code.replace(f"@{name}(", "@other(", 1), section.replace(f"@{name} ", "@other ", 1), ("L3", "C1")
    elif kind == "two":
        code, section, fault = code + code, section + section, ("L3", "C1")
    elif kind == "cut":
        code, section, fault = code.rstrip("}\n") + "\n", section.replace("\nend\n", "\n"), ("L2", "C1")
    else:
        code, section, fault = "", "", ("L2", "C1")
    return edit_text(part, name, code, section), fault[part == "cert"]


def edit_text(part, name, code, section):
    """The text of an edit."""
    texts = {"code": [code], "cert": [section], "both": [code, section]}[part]
    return f"edit {part} @{name}\n" + "".join(text + ".\n" for text in texts)


def right_edit(draw, name, text):
    """An edit of a function: its text, and the code and the section that it gives."""
    part = draw.choice(["code", "cert", "both"])
    code, section = text.code[name], text.section[name]
    if part == "code":
        code, section = changed_code(draw, code, text.names), None
    elif part == "cert":
        code, section = None, changed_section(draw, section)
    else:
        code, section = drawn_code(draw, name, code, text.names)
        if draw.random() < 0.3:
            code, section = changed_code(draw, code, text.names), changed_section(draw, section)
    return edit_text(part, name, code, section), code, section


def printed(dgc, words):
    """The status of a command and what it printed."""
    ran = subprocess.run([dgc, *words], capture_output=True, text=True, timeout=600)
    return ran.returncode, ran.stdout, ran.stderr


def step(dgc, draw, text, base):
    """An edit, what is there after it, and how the line of it has to end."""
    name = draw.choice(text.names)
    if draw.random() < 0.15:
        edit, fault = wrong_edit(draw, name, text)
        return edit, text, f"refused {fault}"
    edit, code, section = right_edit(draw, name, text)
    after = text.edited(name, code, section)
    status, out, err = printed(dgc, ["check", *after.written(base)])
    if status == 2:
        return edit, text, f"refused {err.split()[1]}"
    if status not in (0, 1):
        sys.exit(f"check ends with status {status}: {err}")
    checked = 1 if after.told(name) == text.told(name) else 1 + after.callers(name)
    return edit, after, f"rechecked {checked} {out.rstrip()}"


def compare(dgc, seed, count, folder):
    """Edits a drawn module. Returns how many edits were taken, how many refused, and how many verdicts were no; or names a difference."""
    draw = random.Random(seed)
    module, certificate, _ = drawn.draw_module(draw)
    text = Text(module, certificate)
    paths = text.written(os.path.join(folder, "first"))
    wanted, edits = [printed(dgc, ["check", *paths])[1].rstrip()], []
    for number in range(1, count + 1):
        edit, text, line = step(dgc, draw, text, os.path.join(folder, "after"))
        edits.append(edit)
        wanted.append(f"{number} {line}")
    path = os.path.join(folder, "edits")
    with open(path, "w", encoding="utf-8") as file:
        file.write("".join(edits))
    status, out, err = printed(dgc, ["recheck", *paths, path])
    lines = out.rstrip("\n").split("\n")
    for place, (line, want) in enumerate(zip(lines, wanted)):
        if line != want:
            sys.exit(f"seed {seed}: wanted `{want}`, not `{line}`\n" + (edits[place - 1] if place else ""))
    verdicts = [line for line in wanted if "refused" not in line.split()[1:2]]
    last = 1 if re.search(r"\bno @", verdicts[-1]) else 0
    if len(lines) != len(wanted) or err or status != last:
        sys.exit(f"seed {seed}: {len(lines)} lines for {len(wanted)}, status {status} for {last}, {err}")
    refused = sum("refused" in line for line in wanted)
    return count - refused, refused, sum(" no @" in line for line in wanted)


def timed_edits(draw, text, count):
    """Edits of a module of generate.py: a third each of code, of a section, and of both."""
    edits = []
    for number in range(count):
        name = draw.choice(text.names)
        code, section = text.code[name], text.section[name]
        part = ["code", "cert", "both"][number % 3]
        if part == "both":
            code, section = ("\n".join(lines) + "\n" for lines in draw.choice(generate.SHAPES)(draw, name))
            text.code[name], text.section[name] = code, section
        edits.append(edit_text(part, name, code.replace("mul i64", "add i64"), section))
    return edits


def time_edits(dgc, seed, functions, count, runs, folder):
    """Prints the time of a check of a large module, and that of an edit."""
    base, path = os.path.join(folder, "large"), os.path.join(folder, "edits")
    here = os.path.dirname(os.path.abspath(__file__))
    subprocess.run([sys.executable, os.path.join(here, "generate.py"), "--functions", str(functions), "--seed", str(seed), base], check=True)
    paths = [base + ".ll", base + ".cert"]
    with open(paths[0], encoding="utf-8") as module, open(paths[1], encoding="utf-8") as certificate:
        text = Text(module.read(), certificate.read())
    took = {}
    for number, edits in (("none", []), ("all", timed_edits(random.Random(seed), text, count))):
        with open(path, "w", encoding="utf-8") as file:
            file.write("".join(edits))
        took[number], out = fastest([dgc, "recheck", *paths, path], runs)
    whole, _ = fastest([dgc, "check", *paths], runs)
    one = (took["all"] - took["none"]) / count
    print(f"{functions} functions: check {whole * 1000:.1f} ms, recheck without edits {took['none'] * 1000:.1f} ms, "
          f"with {count} edits {took['all'] * 1000:.1f} ms")
    print(f"one edit {one * 1000:.3f} ms, {100 * one / whole:.2f} % of a check  ({out.splitlines()[-1]})")


def main():
    parser = argparse.ArgumentParser(description=__doc__.split("\n")[0])
    parser.add_argument("dgc")
    parser.add_argument("--modules", type=int, default=20)
    parser.add_argument("--edits", type=int, default=100)
    parser.add_argument("--seed", type=int, default=0)
    parser.add_argument("--functions", type=int, default=10000)
    parser.add_argument("--timed", type=int, default=1000)
    parser.add_argument("--runs", type=int, default=5)
    options = parser.parse_args()
    dgc = os.path.abspath(options.dgc)
    with tempfile.TemporaryDirectory() as folder:
        tally = [0, 0, 0]
        for seed in range(options.seed, options.seed + options.modules):
            taken, refused, no = compare(dgc, seed, options.edits, folder)
            tally = [tally[0] + taken, tally[1] + refused, tally[2] + no]
            print(f"seed {seed}: {taken} edits taken and {refused} refused as wanted, {no} verdicts of no", flush=True)
        print(f"{options.modules} modules: {tally[0]} edits taken and {tally[1]} refused as wanted, {tally[2]} verdicts of no")
        if options.timed:
            time_edits(dgc, options.seed, options.functions, options.timed, options.runs, folder)


if __name__ == "__main__":
    main()
