#!/usr/bin/env python3
"""Makes a soak, a hunt, or a list of checks, of many pieces on the nodes of a Slurm cluster, and joins their answers (docs/SCALE.md).

    cluster.py [OPTIONS] soak MODULE TRACE --seeds N --steps S [OTHER OPTIONS OF dgc soak]
    cluster.py [OPTIONS] hunt MODULE [--seeds N] [--steps S] [OTHER OPTIONS OF dgc hunt]
    cluster.py [OPTIONS] check LIST [OPTIONS OF dgc check]      a line `MODULE CERT` each
    cluster.py [OPTIONS] join FOLDER                            goes on with what an earlier call began

    --pieces N          how many pieces there are at most (16)
    --at-once N         how many tasks of an array run at once (as many as the cluster lets)
    --folder FOLDER     where the work is, for all nodes to see; it must be new, or hold the same work (dgc-cluster-.. here)
    --dgc PATH          the program (DGC, or dgc)
    --sbatch "WORDS"    further words for sbatch, such as --partition=long --cpus-per-task=8
    --again N           how often a piece without an answer is submitted again (4)
    --wait SECONDS      for how long answers are waited for (without it: until there are all)
    --each              of a list also the modules that are accepted

Of a soak or a hunt it prints what one call of dgc prints. Of a list it prints what one call of dgc prints of each module that is not accepted,
in the order of the list, and how many were. The status is that of dgc, of a list the highest; and 5 where answers are missing, which
standard error then names.
"""
import argparse
import os
import shlex
import shutil
import sys
import tempfile
import time

import pieces
import slurm

INCOMPLETE = 5
LAST_SEED = 4294967294
PAUSES = (0.5, 5.0)    # the shortest time between two looks at the queue, and the longest
REFUSED = 3.0          # the time after a submission that was refused


class Parser(argparse.ArgumentParser):
    """Refuses a command line with the status that dgc has for that."""

    def __init__(self, **words):
        super().__init__(allow_abbrev=False, **words)

    def error(self, message):
        pieces.refuse(message)


def say(text):
    print(f"cluster: {text}", file=sys.stderr, flush=True)


# What is asked


def plan_of(options, kind, words, cuts, files, **more):
    """A plan. The sums are of the program and of the texts that all pieces read."""
    sums = {path: pieces.sum_of(path) for path in [options.dgc, *map(os.path.abspath, files)]}
    return {"kind": kind, "dgc": options.dgc, "cwd": os.getcwd(), "words": words, "pieces": cuts, "sums": sums, **more}


def folder_of(options):
    """The folder of the work. A new one has a name that no other has."""
    return os.path.abspath(options.folder or tempfile.mkdtemp(prefix="dgc-cluster-", dir="."))


def seed_words(kind, words):
    """What the command line of a soak or of a hunt says of seeds and of what is made of a broken one; and its other words."""
    parser = Parser(prog=f"cluster.py {kind}", add_help=False)
    parser.add_argument("--seeds", type=int, **({"required": True} if kind == "soak" else {"default": 10000}))
    parser.add_argument("--first", type=int, default=0)
    parser.add_argument("--save")
    for word in ("--seconds", "--explain"):
        parser.add_argument(word)
    parser.set_defaults(tries=None, shrink=False)
    if kind == "soak":
        parser.add_argument("--tries")
        parser.add_argument("--shrink", action="store_true")
    asked, rest = parser.parse_known_args(words)
    if asked.seconds or asked.explain:
        pieces.refuse("--seconds and --explain are not for pieces: what they say is of one call")
    if not 0 <= asked.first <= LAST_SEED + 1 or asked.seeds < 0:
        pieces.refuse("--first and --seeds are numbers from 0 to 4294967295")
    more = [*(["--save", os.path.abspath(asked.save)] if asked.save else []), *(["--shrink"] if asked.shrink else []), *(["--tries", asked.tries] if asked.tries else [])]
    return asked.first, min(asked.seeds, LAST_SEED + 1 - asked.first), more, rest


def begin_soak(options, words):
    """The work of a soak. Where one call ends before its first seed, this call ends so too."""
    first, seeds, more, rest = seed_words("soak", words)
    status, out, error = pieces.ran([options.dgc, "soak", *rest, *more, "--first", str(first), "--seeds", "0"])
    if status or not seeds:
        end(status, out, error)
    return begin_seeds(options, "soak", first, seeds, more, rest)


def begin_hunt(options, words):
    """The work of a hunt. Where one call ends with its first seed, since that breaks or nothing can start, this call ends so too."""
    first, seeds, more, rest = seed_words("hunt", words)
    status, out, error = pieces.ran([options.dgc, "hunt", *rest, *more, "--first", str(first), "--seeds", str(min(seeds, 1))])
    if status or out.startswith("sound 0 "):
        end(status, out, error)
    return begin_seeds(options, "hunt", first, seeds, more, rest)


def end(status, out, error):
    """Ends as a call of dgc did."""
    sys.stdout.write(out)
    sys.stderr.write(error)
    sys.exit(status)


def begin_seeds(options, kind, first, seeds, more, rest):
    """The work of these seeds."""
    files = [file for word in rest for file in [word.partition("=")[2] if word.startswith("--") else word] if os.path.isfile(file)]
    plan = plan_of(options, kind, rest, pieces.cut(first, seeds, options.pieces), files, first=first, seeds=seeds, after=more)
    return pieces.Work.begin(folder_of(options), plan)


def pairs_of(path):
    """The pairs of a list."""
    found = []
    for number, line in enumerate(pieces.text_of(path).split("\n"), 1):
        words = shlex.split(line) if set(line) & set("'\"\\") else line.split()
        if len(words) not in (0, 2):
            pieces.refuse(f"{path}:{number}: a line has a module and a certificate")
        found += [words] if words else []
    return found


def begin_check(options, words):
    """The work of a list of checks. Where its options are refused, this call is."""
    if not words:
        pieces.refuse("no list is named")
    pairs = pairs_of(words[0])
    status, _, error = pieces.ran([options.dgc, "check", *(pairs[0] if pairs else ("-", "-")), *words[1:]])
    if status == 4 and not error.startswith("error file "):
        sys.stderr.write(error)
        sys.exit(status)
    cuts = pieces.cut(0, len(pairs), options.pieces) if pairs else []
    parts = [pairs[first:first + count] for first, count in cuts]
    plan = plan_of(options, "check", words[1:], cuts, [words[0]], list=os.path.abspath(words[0]))
    return pieces.Work.begin(folder_of(options), plan, parts)


def begun(_, words):
    """The work that a folder holds."""
    if len(words) != 1:
        pieces.refuse("join takes one folder")
    return pieces.Work(words[0])


# How the answers are waited for


def needed(work, answers):
    """The pieces that have no answer and are not above a broken seed that was found."""
    broken = [number for number, answer in answers.items() if work.plan["kind"] != "check" and answer["said"][0][0] == 1]
    return set(range(min(broken, default=len(work.pieces())))) - answers.keys()


def gather(work, arrays, options):
    """The answers by piece: all that are needed, or what came in the time and in the tries that there are."""
    answers, tries, gone, pause = {}, {}, {}, PAUSES[0]
    until = time.monotonic() + options.wait if options.wait is not None else None
    while True:
        waiting = arrays.waiting()
        came = fresh_answers(work, answers)
        want = needed(work, answers)
        if waiting is not None:
            arrays.cancel(waiting.keys() - want - answers.keys(), waiting)
            gone = {number: gone.get(number, 0) + 1 for number in want - waiting.keys()}
            lost = {number for number, turns in gone.items() if turns > 1 or number not in tries}
            over = {number for number in lost if tries.get(number, 0) > options.again}
            submit(arrays, lost - over, tries)
            if over == want:
                return answers
        if not want or (until is not None and time.monotonic() > until):
            return answers
        pause = PAUSES[0] if came or gone else min(pause * 1.2, PAUSES[1])
        time.sleep(pause)


def fresh_answers(work, answers):
    """Takes the answers that came. Returns how many."""
    before = len(answers)
    for number in work.there("answers") - answers.keys():
        answer = work.answer(number)
        if answer:
            answers[number] = answer
    return len(answers) - before


def submit(arrays, lost, tries):
    """Submits pieces for the first time, or those whose tasks are over without an answer."""
    again = {number for number in lost if number in tries}
    if again:
        say(f"pieces {slurm.ranges(again)} have no answer: submitted again")
    if lost and not arrays.submit(lost):
        time.sleep(REFUSED)
    for number in lost:
        tries[number] = tries.get(number, 0) + 1


# How they are joined


def missing(work, numbers):
    """Names what has no answer."""
    for number in sorted(numbers):
        first, count = work.pieces()[number]
        what = f"seeds {first} to {first + count - 1}" if work.plan["kind"] != "check" else f"pairs {first + 1} to {first + count} of {work.plan['list']}"
        fault = work.path("faults", number)
        say(f"no answer: piece {number}, {what}{': ' + pieces.text_of(fault).strip() if os.path.exists(fault) else ''}")
    say(f"what is there is kept: cluster.py join {work.folder}")
    return INCOMPLETE


def join_seeds(work, answers):
    """Prints the answer of a soak or of a hunt, if it is whole. A broken seed is made once more, here."""
    kind = work.plan["kind"]
    broken = [number for number in sorted(answers) if answers[number]["said"][0][0] == 1]
    left = needed(work, answers)
    if left and broken:
        say(f"not known to be the least: {answers[broken[0]]['said'][0][1].strip()}")
    if left:
        return missing(work, left)
    if not broken:
        sys.stdout.write(all_sound(work))
        return 0
    answer = answers[broken[0]]
    line = answer["said"][0][1]
    seed = pieces.broken_seed(kind, work.pieces()[broken[0]][0], line)
    os.chdir(work.plan["cwd"])
    status, out, error = pieces.ran([work.plan["dgc"], kind, *work.plan["words"], *work.plan["after"], "--first", str(seed), "--seeds", "1"])
    if status in (0, 1) and not is_same(kind, line, out):
        say(f"two answers of seed {seed}: node {answer['node']} says {line.strip()}, and here it is {out.strip() or error.strip()}")
        return INCOMPLETE
    sys.stdout.write(of_whole(work.plan["first"], seed, out) if kind == "hunt" and status == 1 else out)
    sys.stderr.write(error)
    return status


def all_sound(work):
    """What one call prints where all seeds are sound."""
    first, seeds = work.plan["first"], work.plan["seeds"]
    if work.plan["kind"] == "hunt":
        return f"sound {seeds} seeds\nstarts {pieces.starts_of(first, first + seeds)}\n"
    return f"sound {seeds}{' biased' if '--bias' in work.plan['words'] else ''} seeds\n"


def is_same(kind, line, out):
    """Whether a node and a call here say the same of a broken seed. How many seeds a hunt tried before does not matter."""
    if kind == "soak":
        return out.startswith(line)
    known, found = (pieces.SAID["hunt"].fullmatch(text) for text in (line, out))
    return bool(found) and known.group("line", "tries") == found.group("line", "tries")


def of_whole(first, seed, out):
    """What one call of a hunt from the first seed on prints of a seed, by what it prints of that seed alone."""
    found = pieces.SAID["hunt"].fullmatch(out)
    return f"{found['line']}\nstarts {pieces.starts_of(first, seed + 1)} seeds {seed + 1 - first} {found['tries']}\n"


def line_of(work, pair, said):
    """What is said of a pair; where a node had no file or no memory, what is said here."""
    if said[0] not in pieces.ENDED["check"]:
        said = pieces.ran([work.plan["dgc"], "check", *pair, *work.plan["words"]])
    return said[0], "".join(f"{pair[0]}: {line}\n" for line in (said[1] + said[2]).splitlines())


def join_check(work, answers, each):
    """Prints what is said of each module that is not accepted, in the order of the list, and how many there are."""
    os.chdir(work.plan["cwd"])
    counts, worst = {}, 0
    for number, (first, count) in enumerate(work.pieces()):
        if number not in answers:
            print(f"no answer: pairs {first + 1} to {first + count}")
            continue
        for pair, said in zip(work.part(number), answers[number]["said"]):
            status, lines = line_of(work, pair, said)
            counts[status] = counts.get(status, 0) + 1
            worst = max(worst, status if status >= 0 else 4)
            if status or each:
                sys.stdout.write(lines)
    total = sum(count for _, count in work.pieces())
    yes, no = counts.pop(0, 0), counts.pop(1, 0)
    print(f"pairs {total} yes {yes} no {no} error {sum(counts.values())}")
    left = needed(work, answers)
    return missing(work, left) if left else worst


# The command line


def command_line():
    parser = Parser(usage=__doc__)
    parser.add_argument("--pieces", type=int, default=16)
    parser.add_argument("--at-once", type=int)
    parser.add_argument("--folder")
    parser.add_argument("--dgc", default=os.environ.get("DGC", "dgc"))
    parser.add_argument("--sbatch", type=shlex.split, default=[])
    parser.add_argument("--again", type=int, default=4)
    parser.add_argument("--wait", type=float)
    parser.add_argument("--each", action="store_true")
    parser.add_argument("command", choices=["soak", "hunt", "check", "join"])
    parser.add_argument("words", nargs=argparse.REMAINDER)
    options = parser.parse_args()
    if options.command != "join":
        found = shutil.which(options.dgc)
        if not found:
            pieces.refuse(f"no program {options.dgc}")
        options.dgc = os.path.abspath(found)
    return options


def main():
    options = command_line()
    try:
        work = {"soak": begin_soak, "hunt": begin_hunt, "check": begin_check, "join": begun}[options.command](options, options.words)
    except OSError as error:
        pieces.refuse(f"{error.filename}: {error.strerror}")
    except ValueError as error:
        pieces.refuse(f"{options.words[0]}: {error}")
    fault = work.changed()
    if fault:
        pieces.refuse(fault)
    try:
        answers = gather(work, slurm.Arrays(work, options), options)
    except KeyboardInterrupt:
        say(f"stopped; the tasks go on. To wait for them: cluster.py join {work.folder}")
        return INCOMPLETE
    return join_seeds(work, answers) if work.plan["kind"] != "check" else join_check(work, answers, options.each)


if __name__ == "__main__":
    sys.exit(main())
