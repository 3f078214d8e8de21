#!/usr/bin/env python3
"""Compares the objects of answers with what is printed, and with the files that they are about.

    json_rows.py DGC [--rows FOLDER] [--only WORD]

Of each row of crates/dgc_tests that checks, makes certificates or rechecks, the command is run as it stands, with `--explain always`, with
`--json FILE` and with `--sarif FILE`. It is checked that:
- the two outputs and the status are the same bytes with a file as without;
- the object has the members of docs/JSON.md in the order of their names, and none that is null;
- its printed lines, its verdict and its refusals are those that are printed;
- each place is that of a token in its file, and that of a refusal is where the instruction with its number begins;
- the sentences, labels, notes and lines are those that `--explain always` prints;
- each change of a fix replaces the bytes that it says;
- the log of SARIF has members of the standard, with a result for each refusal and each fault, at the same places.
Prints a line for each difference, and what was counted. The status is 1 where something differs. For use by hand.
"""
import argparse
import collections
import json
import os
import re
import subprocess
import sys
import tempfile

HERE = os.path.dirname(os.path.abspath(__file__))
ROWS = os.path.join(HERE, "..", "crates", "dgc_tests", "data", "rows")
COMMANDS = ("check", "make", "recheck")
VERDICTS = {0: "yes", 1: "no", 2: "unreadable", 3: "memory", 4: "fault"}
HEAD = re.compile(r"^(?P<path>.+?)(?::(?P<line>\d+):(?P<column>\d+))?: (?P<code>[A-Z]\d+|note): (?P<text>.*)$")

# The members of each kind of object: those that must be there, and those that may be.
MARK = ({"column", "length", "line"}, set())
NOTE = ({"text"}, {"column", "line", "mark", "path"})
CHANGE = ({"column", "file", "length", "line", "new", "old", "path", "start"}, set())
FIX = ({"changes", "safe"}, set())
FINDING = ({"code"}, {
    "block", "block_number", "claim", "column", "fixes", "form", "function", "function_number", "here", "instruction", "known", "label", "line",
    "mark", "mend", "notes", "path", "target", "target_number", "text", "words"})
STEP = ({"edit", "verdict"}, {"fault", "functions", "rechecked", "refusals"})
ANSWER = ({"command", "format", "status", "tool", "verdict", "version"}, {
    "certificate", "edits", "fault", "functions", "module", "printed", "refusals", "shapes", "steps", "trusts"})

# The members of SARIF 2.1.0 that are written, by the property of the standard in which they stand. Those with a star must be there.
SARIF = {
    "sarifLog": {"$schema": None, "runs*": "run", "version*": None},
    "run": {"artifacts": "artifact", "columnKind": None, "invocations": "invocation", "results": "result", "tool*": "tool"},
    "tool": {"driver*": "toolComponent"},
    "toolComponent": {"name*": None, "rules": "reportingDescriptor", "version": None},
    "reportingDescriptor": {"help": "multiformatMessageString", "id*": None, "shortDescription": "multiformatMessageString"},
    "multiformatMessageString": {"text*": None},
    "invocation": {"executionSuccessful*": None, "exitCode": None},
    "artifact": {"location": "artifactLocation"},
    "artifactLocation": {"uri": None},
    "result": {"fixes": "fix", "level": None, "locations": "location", "message*": "message", "relatedLocations": "location", "ruleId": None, "ruleIndex": None},
    "message": {"text": None},
    "location": {"id": None, "logicalLocations": "logicalLocation", "message": "message", "physicalLocation": "physicalLocation"},
    "logicalLocation": {"fullyQualifiedName": None},
    "physicalLocation": {"artifactLocation": "artifactLocation", "region": "region"},
    "region": {"endColumn": None, "endLine": None, "startColumn": None, "startLine": None},
    "fix": {"artifactChanges*": "artifactChange", "description": "message"},
    "artifactChange": {"artifactLocation*": "artifactLocation", "replacements*": "replacement"},
    "replacement": {"deletedRegion*": "region", "insertedContent": "artifactContent"},
    "artifactContent": {"text": None},
}


class Row:
    """A row, what it is run with, and what was found wrong of it."""

    def __init__(self, program, folder, name, counts):
        self.program, self.name, self.counts, self.wrong = program, name, counts, []
        self.folder = os.path.join(folder, name)
        with open(os.path.join(self.folder, "args"), encoding="utf-8", errors="surrogateescape") as words:
            self.words = words.read().split("\n")
        while self.words and not self.words[-1]:
            self.words.pop()

    def run(self, *more):
        """The status and both outputs."""
        path = os.path.join(self.folder, "stdin")
        given = open(path, "rb").read() if os.path.exists(path) else b""
        done = subprocess.run([self.program, *self.words, *more], cwd=self.folder, input=given, capture_output=True)
        return done.returncode, done.stdout, done.stderr

    def say(self, condition, words):
        """Remembers what is wrong."""
        if not condition:
            self.wrong.append(words)

    def text(self, path):
        """The bytes of a file of the row, or nothing."""
        full = os.path.join(self.folder, path)
        if path == "-":
            full = os.path.join(self.folder, "stdin")
        return open(full, "rb").read() if os.path.isfile(full) else None


def check_members(row, kind, found, members):
    """The members of an object: which, in what order, and none that is null or an empty list."""
    must, may = members
    row.say(must <= set(found) <= must | may, f"{kind} has the members {sorted(found)}")
    row.say(list(found) == sorted(found), f"the members of {kind} are in the order {list(found)}")
    row.say(all(value is not None and value != [] for value in found.values()), f"{kind} has an empty member")


def line_at(text, number):
    lines = text.split(b"\n")
    return lines[number - 1] if 0 < number <= len(lines) else None


def check_place(row, path, line, column, length=None):
    """A place is in its file, not on a blank, and its length is within its line."""
    text = row.text(path)
    if text is None:
        row.counts["places of texts that stand in no file"] += 1
        return
    row.counts["places"] += 1
    there = line_at(text, line)
    row.say(there is not None and column - 1 <= len(there), f"no place {path}:{line}:{column}")
    if there is None:
        return
    row.say(column - 1 == len(there) or there[column - 1:column] not in (b" ", b"\t"), f"a blank at {path}:{line}:{column}")
    if length is not None:
        row.say(column - 1 + length <= len(there), f"{length} bytes from {path}:{line}:{column} are not within the line")


INSTRUCTION = re.compile(rb"^\s*(?:%(?:\"[^\"]*\"|[-a-zA-Z$._0-9]+)\s*=\s*)?[a-z]+\b")
LABEL = re.compile(rb"^\s*(\"[^\"]*\"|[-a-zA-Z$._0-9]+):")
DROPPED = re.compile(rb"\bcall\b[^@]*@llvm\.(?:lifetime|invariant|dbg)\.|\bcall\b[^@]*@llvm\.(?:assume|donothing|prefetch|var\.annotation|experimental\.noalias\.scope\.decl)\b")
DEFINE = re.compile(rb"^\s*define\b.*?(@(?:\"[^\"]*\"|[-a-zA-Z$._0-9]+))\s*\(")


def instruction_lines(text):
    """By function and block the lines of the instructions of a text that has one on each line; None where it is laid out in another way.
    Calls that are read without effect are none."""
    found, function, block = collections.OrderedDict(), None, None
    for number, line in enumerate(text.split(b"\n"), 1):
        bare = re.sub(rb";.*$", b"", line).strip()
        if (head := DEFINE.match(line)):
            if not bare.endswith(b"{"):
                return None
            function, block = head[1].decode(errors="replace"), None
            found[function] = []
        elif function and bare.startswith(b"}"):
            function = None
        elif function and (label := LABEL.match(bare)):
            if bare != label[0].strip():
                return None
            found[function].append([])
        elif function and bare and not DROPPED.search(bare):
            if not INSTRUCTION.match(bare) or b"[" == bare[:1] or b"i32" == bare[:3] and b"label" in bare or bare == b"]":
                return None
            if not found[function]:
                found[function].append([])
            found[function][-1].append(number)
    return found


def check_instruction(row, refusal):
    """The line of a refusal is that of the instruction with its number."""
    text = row.text(refusal.get("path", ""))
    if text is None or "line" not in refusal:
        return
    lines = instruction_lines(text)
    try:
        there = lines[refusal["function"]][refusal["block_number"]][refusal["instruction"]]
    except (TypeError, KeyError, IndexError):
        row.counts["instructions of texts that are laid out in another way"] += 1
        return
    row.counts["instructions"] += 1
    row.say(there == refusal["line"], f"instruction {refusal['instruction']} of {refusal['block']} is on line {there}, not on {refusal['line']}")
    line = line_at(text, there)
    row.say(len(line) - len(line.lstrip()) == refusal["column"] - 1, f"the instruction on line {there} does not begin at column {refusal['column']}")


def check_changes(row, fix):
    check_members(row, "a fix", fix, FIX)
    for change in fix["changes"]:
        check_members(row, "a change", change, CHANGE)
        text = row.text(change["path"])
        row.say(text is not None, f"a change of {change['path']}, which is no file")
        if text is not None:
            row.counts["changes"] += 1
            start = change["start"]
            row.say(text[start:start + change["length"]].decode(errors="replace") == change["old"], f"a change of other bytes at {start}")
            before = text[:start]
            place = (before.count(b"\n") + 1, len(before) - (before.rfind(b"\n") + 1) + 1)
            row.say(place == (change["line"], change["column"]), f"byte {start} is not at {change['line']}:{change['column']}")


def check_finding(row, finding):
    """The members of a refusal or a fault, and its places."""
    check_members(row, "a finding", finding, FINDING)
    if "line" in finding:
        check_place(row, finding["path"], finding["line"], finding["column"])
    if "mark" in finding:
        check_members(row, "a mark", finding["mark"], MARK)
        check_place(row, finding["path"], finding["mark"]["line"], finding["mark"]["column"], finding["mark"]["length"])
    for note in finding.get("notes", []):
        check_members(row, "a note", note, NOTE)
        if "line" in note:
            check_place(row, note["path"], note["line"], note["column"])
        if "mark" in note:
            check_place(row, note["path"], note["mark"]["line"], note["mark"]["column"], note["mark"]["length"])
    for fix in finding.get("fixes", []):
        check_changes(row, fix)


def refusal_line(refusal):
    """The line that is printed of a refusal, without its first word."""
    edge = f" {refusal['target']} {refusal['claim']}" if "target" in refusal else ""
    return f"{refusal['function']} {refusal['block']} {refusal['instruction']} {refusal['code']}{edge}"


def told_in(said):
    """The explanations of a text: each as the members of a finding, without lengths."""
    found, here, into, marked = [], None, None, None
    for line in said.split("\n"):
        head = HEAD.match(line)
        place = {key: int(head[key]) for key in ("line", "column") if head[key]} | {"path": head["path"]} if head else None
        if head and head["code"] == "note" and here:
            marked, into = {**place, "text": head["text"].strip()}, None
            here.setdefault("notes", []).append(marked)
        elif head and head["code"] != "note":
            here, into = {**place, "code": head["code"], "text": head["text"].strip()}, None
            marked = here
            found.append(here)
        elif here is None or not line.strip() or re.match(r"^ *\d+ \| ", line):
            continue
        elif (caret := re.match(r"^      \| *[\t ]*\^~* ?(.*)$", line)):
            if caret[1] and "label" not in marked:
                marked["label"] = caret[1].strip()
            into = None
        elif (part := re.match(r"^  (known|words|mend|form|here):\s+(.*)$", line)):
            into = here.setdefault(part[1], [])
            into.append(part[2].strip())
        elif into is not None:
            into.append(line.strip())
        else:
            here.setdefault("left", []).append(line)
    return found


def bare(finding):
    """What an explanation prints of a finding."""
    kept = {key: finding[key] for key in ("code", "column", "form", "here", "known", "label", "line", "mend", "path", "text", "words") if key in finding}
    notes = [{key: note[key] for key in ("column", "line", "path", "text") if key in note} for note in finding.get("notes", [])]
    return kept | ({"notes": notes} if notes else {})


def findings_in(answer):
    for part in [answer, *answer.get("steps", [])]:
        yield from part.get("refusals", [])
        if "fault" in part:
            yield part["fault"]


def check_printed(row, answer, status, out, err):
    """Verdict, lines, refusals and numbers are those that are printed."""
    row.say(answer["status"] == status and answer["verdict"] == VERDICTS[status], f"verdict {answer['verdict']} with status {status}")
    lines = out.decode(errors="replace").split("\n")[:-1]
    if status <= 1 and not (answer["command"] == "make" and status == 0):
        row.say(answer.get("printed", []) == lines, "other lines than those that are printed")
    if answer["command"] == "check" and status == 0:
        row.say(answer.get("functions") == int(lines[0].split()[1]), "another number of functions")
        row.say(" ".join(["trusts", *answer.get("trusts", [])]) == (lines[1] if len(lines) > 1 else "trusts"), "other functions that are trusted")
    if answer["command"] == "check" and status == 1:
        told = [line[3:] for line in lines if line.startswith("no ")]
        row.say([refusal_line(one) for one in answer.get("refusals", [])] == told, "other refusals than those that are printed")
    if answer["command"] == "recheck" and status <= 1:
        # How many functions outside are trusted stands in the printed lines alone.
        bare_lines = [re.sub(r" trusts \d+$", "", line) for line in lines]
        row.say([step_line(step) for step in answer["steps"]] == bare_lines, "other steps than those that are printed")
    if status == 2:
        first = next(line for line in err.decode(errors="replace").split("\n") if line.startswith("error "))
        row.say(answer["printed"][0] == first, "another line of the fault")
        fault = answer["fault"]
        place = f" {fault['line']}:{fault['column']}" if "line" in fault and re.match(r"error [A-Z]\d+ \d", first) else ""
        row.say(first.startswith(f"error {fault['code']}{place}"), f"the fault {fault['code']}{place} is printed as {first}")


def step_line(step):
    if step["verdict"] == "refused":
        return f"{step['edit']} refused {step['fault']['code']}"
    verdict = f"yes {step['functions']}" if step["verdict"] == "yes" else f"no {refusal_line(step['refusals'][0])}"
    return verdict if step["edit"] == 0 else f"{step['edit']} rechecked {step['rechecked']} {verdict}"


def check_told(row, answer, said):
    """What is told is what `--explain always` prints, as far as it prints it."""
    told = [bare(finding) for finding in findings_in(answer) if "text" in finding]
    printed = told_in(said.decode(errors="replace"))
    if answer["command"] == "recheck":
        row.say(all(one in told for one in printed), "an explanation that the object does not have")
        return
    row.say(told == printed, f"other explanations: {told} and {printed}" if len(told) == len(printed) else f"{len(told)} explanations, and {len(printed)} are printed")
    row.counts["explanations"] += len(told)


def check_sarif(row, kind, found):
    """An object of a log has members of the standard alone."""
    members = {name.rstrip("*"): of for name, of in SARIF[kind].items()}
    row.say(set(found) <= set(members), f"{kind} has the members {sorted(found)}")
    row.say({name[:-1] for name in SARIF[kind] if name.endswith("*")} <= set(found), f"{kind} lacks a member: {sorted(found)}")
    row.say(list(found) == sorted(found), f"the members of {kind} are in the order {list(found)}")
    for name, value in found.items():
        for one in (value if isinstance(value, list) else [value]) if members.get(name) else []:
            check_sarif(row, members[name], one)


def check_log(row, log, answer):
    """A log, beside the object of the same answer."""
    check_sarif(row, "sarifLog", log)
    row.say(log["version"] == "2.1.0" and len(log["runs"]) == 1, "no log of one run")
    run = log["runs"][0]
    findings = list(findings_in(answer))
    row.say([one["ruleId"] for one in run["results"]] == [one["code"] for one in findings], "other results than findings")
    row.say(run["invocations"][0]["exitCode"] == answer["status"], "another exit code")
    rules = [rule["id"] for rule in run["tool"]["driver"]["rules"]]
    for one, finding in zip(run["results"], findings):
        row.say(rules[one["ruleIndex"]] == one["ruleId"], "a rule with another number")
        row.counts["results"] += 1
        region = one["locations"][0].get("physicalLocation", {}).get("region")
        mark = finding.get("mark", finding)
        row.say((region or {}).get("startLine") == mark.get("line"), "a region on another line")
        if region:
            row.say(region["endLine"] >= region["startLine"] and (region["endLine"], region["endColumn"]) >= (region["startLine"], region["startColumn"]), "a region that ends before it begins")


def with_file(row, option):
    """The outputs with this option, and what is written to its file."""
    with tempfile.NamedTemporaryFile() as file:
        done = row.run(option, file.name)
        file.seek(0)
        return done, file.read()


def told_of(row):
    """What is printed with explanations."""
    words = row.words
    kept = [word for place, word in enumerate(words) if word != "--explain" and (place == 0 or words[place - 1] != "--explain")]
    row.words = kept
    said = row.run("--explain", "always")[2]
    row.words = words
    return said


def check_row(row):
    plain = row.run()
    if plain[0] == 4 and b"error file" not in plain[2]:
        return
    row.counts[row.words[0]] += 1
    done, text = with_file(row, "--json")
    row.say(done == plain, "other outputs with --json than without")
    if not text:
        row.say(plain[0] == 3, "no object")
        return
    row.say(text.endswith(b"\n") and text.count(b"\n") == 1, "the object is not one line")
    answer = json.loads(text)
    check_members(row, "the answer", answer, ANSWER)
    for step in answer.get("steps", []):
        check_members(row, "a step", step, STEP)
    check_printed(row, answer, *plain)
    for finding in findings_in(answer):
        row.counts["findings"] += 1
        check_finding(row, finding)
    for refusal in answer.get("refusals", []):
        check_instruction(row, refusal)
    if plain[0] in (1, 2):
        check_told(row, answer, told_of(row))
    done, text = with_file(row, "--sarif")
    row.say(done == plain, "other outputs with --sarif than without")
    check_log(row, json.loads(text), answer)


def main():
    parser = argparse.ArgumentParser(description=__doc__.split("\n", maxsplit=1)[0])
    parser.add_argument("program")
    parser.add_argument("--rows", default=ROWS)
    parser.add_argument("--only", default="")
    options = parser.parse_args()
    counts, wrong, rows = collections.Counter(), 0, 0
    for name in sorted(os.listdir(options.rows)):
        if options.only not in name or not os.path.exists(os.path.join(options.rows, name, "args")):
            continue
        row = Row(os.path.abspath(options.program), options.rows, name, counts)
        if row.words[:1] not in ([command] for command in COMMANDS) or {"--json", "--sarif", "--help"} & set(row.words):
            continue
        rows += 1
        try:
            check_row(row)
        except (ValueError, KeyError, IndexError, StopIteration) as error:
            row.wrong.append(repr(error))
        for words in row.wrong:
            print(f"{name}: {words}")
        wrong += bool(row.wrong)
    print(", ".join(f"{count} {what}" for what, count in sorted(counts.items())))
    print(f"{rows} rows, {wrong} wrong")
    sys.exit(1 if wrong else 0)


if __name__ == "__main__":
    main()
