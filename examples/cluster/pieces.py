"""Pieces of a soak, of a hunt or of a list of checks: how they are cut, how a node makes one, and what its answer is.

A folder that all nodes see holds the work:

    plan.json      what is asked, how it is cut, and the sums of the program and of the texts that all pieces read
    parts/N        of a list: the pairs of piece N
    answers/N      the answer of piece N. It is moved into place whole, so a half-written one is never read
    broken/N       a piece found a broken seed. A task of a piece above ends at once where it sees that
    faults/N       why the last task of piece N had no answer, and on which node
    log/           what tasks write to their outputs
"""
import hashlib
import json
import os
import re
import resource
import subprocess
import sys
import time

ENDED = {"soak": (0, 1), "hunt": (0, 1), "check": (0, 1, 2)}    # the statuses of dgc that answer; the others are of the node, its memory or its files
SAID = {    # of seeds that are sound how many, and of a broken one: its number, or how many were tried up to it
    "soak": re.compile(r"(?:sound (?P<sound>\d+)|broken)(?P<biased> biased)? seeds?(?: (?P<at>\d+) .+)?\n"),
    "hunt": re.compile(r"(?:sound (?P<sound>\d+) seeds\nstarts \d+|(?P<line>broken .+)\nstarts \d+ seeds (?P<at>\d+) (?P<tries>tries \d+))\n"),
}
ALIKE = 64    # so many seeds of a hunt, counted from 0, have one start


def refuse(text):
    """Ends as dgc does where a command line is refused or a file cannot be read."""
    print(f"error: {text}", file=sys.stderr)
    sys.exit(4)


def text_of(path):
    with open(path, encoding="utf-8") as file:
        return file.read()


def sum_of(path):
    """The sum of a file's bytes."""
    with open(path, "rb") as file:
        return hashlib.sha256(file.read()).hexdigest()


def put(path, text):
    """Writes a file that is there whole or not at all."""
    beside = f"{path}.{os.uname().nodename}.{os.getpid()}.part"
    with open(beside, "w", encoding="utf-8") as file:
        file.write(text)
        file.flush()
        os.fsync(file.fileno())
    os.replace(beside, path)


def cut(first, count, pieces):
    """At most that many pieces, each with its first number and its size, which differ by one at most."""
    pieces = max(1, min(pieces, count))
    size, more = divmod(count, pieces)
    return [(first + number * size + min(number, more), size + (number < more)) for number in range(pieces)]


def broken_seed(kind, first, out):
    """The broken seed that this answer names of seeds from the first one on, or None."""
    found = SAID[kind].fullmatch(out)
    if not found or not found["at"]:
        return None
    return int(found["at"]) if kind == "soak" else first + int(found["at"]) - 1


def starts_of(first, past):
    """How many starts a hunt draws for the seeds from the first one to below the last."""
    return -(-past // ALIKE) - first // ALIKE if first < past else 0


class Work:
    """A folder with its plan."""

    def __init__(self, folder):
        self.folder = os.path.abspath(folder)
        text = text_of(self.path("plan.json"))
        self.plan = json.loads(text)
        self.sum = hashlib.sha256(text.encode()).hexdigest()

    @staticmethod
    def begin(folder, plan, parts=()):
        """The work of this plan: begun in a folder that has none, or gone on with in one that has the same."""
        text = json.dumps(plan) + "\n"
        planned = os.path.join(folder, "plan.json")
        if os.path.exists(planned):
            if text_of(planned) != text:
                refuse(f"{folder} holds other work. Its plan is {planned}")
            return Work(folder)
        for name in ("parts", "answers", "broken", "faults", "log"):
            os.makedirs(os.path.join(folder, name), exist_ok=True)
        for number, part in enumerate(parts):
            put(os.path.join(folder, "parts", str(number)), json.dumps(part))
        put(planned, text)
        return Work(folder)

    def path(self, *names):
        return os.path.join(self.folder, *map(str, names))

    def pieces(self):
        """The first number and the size of each piece."""
        return self.plan["pieces"]

    def part(self, number):
        """The pairs of a piece of a list."""
        return json.loads(text_of(self.path("parts", number)))

    def words(self, number):
        """The words of a piece of a soak or of a hunt, after the program."""
        first, count = self.pieces()[number]
        kind = self.plan["kind"]
        return [kind, *self.plan["words"], "--first", str(first), "--seeds", str(count), *(["--explain", "never"] if kind == "soak" else [])]

    def there(self, name):
        """The numbers of the files of a folder that are whole."""
        return {int(entry) for entry in os.listdir(self.path(name)) if entry.isdigit()}

    def answer(self, number):
        """The answer of a piece, or None where there is none that fits the plan."""
        try:
            answer = json.loads(text_of(self.path("answers", number)))
        except (OSError, ValueError):
            return None
        whole = isinstance(answer, dict) and answer.get("plan") == self.sum and answer.get("piece") == number
        return answer if whole and self.fits(number, answer.get("said")) else None

    def fits(self, number, said):
        """Whether this may be said of a piece: of each pair one thing, and of seeds that all are sound, or that one of these breaks."""
        first, count = self.pieces()[number]
        kind = self.plan["kind"]
        if not isinstance(said, list) or len(said) != (count if kind == "check" else 1):
            return False
        if kind == "check":
            return True
        status, out, _ = said[0]
        found = SAID[kind].fullmatch(out)
        if status not in ENDED[kind] or not found or (kind == "soak" and bool(found["biased"]) != ("--bias" in self.plan["words"])):
            return False
        if status == 0:
            return found["sound"] == str(count)
        return broken_seed(kind, first, out) in range(first, first + count)

    def changed(self):
        """The first file that is another one than the plan has, or none."""
        for path, known in self.plan["sums"].items():
            try:
                if sum_of(path) != known:
                    return f"{path} is not what it was when the work was planned"
            except OSError as error:
                return f"{path}: {error.strerror}"
        return None


def ran(words):
    """Status, output and errors of a command."""
    done = subprocess.run(words, stdin=subprocess.DEVNULL, capture_output=True, encoding="utf-8", errors="backslashreplace", close_fds=False)
    return [done.returncode, done.stdout, done.stderr]


def made(work, number):
    """What the program says of a piece: a status, an output and errors of its seeds, or of each of its checks."""
    program = work.plan["dgc"]
    if work.plan["kind"] != "check":
        return [ran([program, *work.words(number)])]
    checks = [[program, "check", *pair, *work.plan["words"]] for pair in work.part(number)]
    processors = int(os.environ.get("SLURM_CPUS_PER_TASK", "1"))
    if processors == 1:
        return list(map(ran, checks))
    from concurrent.futures import ThreadPoolExecutor    # loaded only here: a task that does without begins sooner
    with ThreadPoolExecutor(processors) as threads:
        return list(threads.map(ran, checks))


def make(folder, number):
    """Makes a piece, and leaves its answer or why there is none. Returns the status of the task."""
    began = time.monotonic()
    node = os.environ.get("SLURMD_NODENAME", os.uname().nodename)
    work = Work(folder)
    if any(below < number for below in work.there("broken")) or work.answer(number):
        return 0
    os.chdir(work.plan["cwd"])
    fault = work.changed()
    said = [] if fault else made(work, number)
    if not fault and not work.fits(number, said):
        fault = f"dgc ended with {said[0][0]}: {(said[0][1] + said[0][2]).strip()[:500]}"
    if fault:
        put(work.path("faults", number), f"node {node}: {fault}\n")
        return 1
    used = [resource.getrusage(who) for who in (resource.RUSAGE_SELF, resource.RUSAGE_CHILDREN)]
    answer = {
        "plan": work.sum, "piece": number, "said": said, "node": node,
        "began_again": int(os.environ.get("SLURM_RESTART_COUNT", "0")), "wall": round(time.monotonic() - began, 4),
        "own": round(used[0].ru_utime + used[0].ru_stime, 4), "dgc": round(used[1].ru_utime + used[1].ru_stime, 4),
    }
    put(work.path("answers", number), json.dumps(answer) + "\n")
    if work.plan["kind"] != "check" and said[0][0] == 1:
        put(work.path("broken", number), "")
    return 0


if __name__ == "__main__":
    sys.exit(make(sys.argv[1], int(sys.argv[2])))
