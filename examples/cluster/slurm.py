"""Slurm's side of a job array: what is submitted, what still waits or runs, what is cancelled."""
import json
import os
import re
import subprocess
import sys

HERE = os.path.dirname(os.path.abspath(__file__))


def told(*words):
    """What a command of Slurm prints, or None with what it says in error. Lists of tasks are not cut short."""
    try:
        done = subprocess.run(words, stdin=subprocess.DEVNULL, capture_output=True, text=True, env={**os.environ, "SLURM_BITSTR_LEN": "0"})
    except OSError as error:
        return None, f"{words[0]}: {error.strerror}"
    return (done.stdout if done.returncode == 0 else None), done.stderr.strip()


def ranges(numbers):
    """Numbers as Slurm writes them: 0-3,7."""
    found = []
    for number in sorted(numbers):
        if found and found[-1][1] == number - 1:
            found[-1][1] = number
        else:
            found.append([number, number])
    return ",".join(str(low) if low == high else f"{low}-{high}" for low, high in found)


def numbers_of(text):
    """The numbers of such ranges; what stands after a % is how many of them run at once."""
    found = set()
    for low, high, step in re.findall(r"(\d+)(?:-(\d+))?(?::(\d+))?", text.split("%")[0]):
        found |= set(range(int(low), int(high or low) + 1, int(step or 1)))
    return found


class Arrays:
    """The job arrays of a folder of work. Their numbers stand in the file `jobs`, so that one who goes on knows them."""

    def __init__(self, work, options):
        self.work, self.options, self.cancelled = work, options, set()
        self.path = work.path("jobs")
        self.jobs = []
        if os.path.exists(self.path):
            with open(self.path, encoding="utf-8") as file:
                self.jobs = [tuple(json.loads(line)) for line in file]
        self.most = None

    def length(self):
        """How many tasks an array may have."""
        if self.most is None:
            config, _ = told("scontrol", "show", "config")
            found = re.search(r"MaxArraySize\s*=\s*(\d+)", config or "")
            self.most = max(1, int(found[1]) - 1) if found else 1000
        return self.most

    def submit(self, pieces):
        """Submits arrays of these pieces. Returns whether all were taken."""
        for block in sorted({piece // self.length() for piece in pieces}):
            offset = block * self.length()
            here = {piece for piece in pieces if piece // self.length() == block}
            spec = ranges(piece - offset for piece in here) + (f"%{self.options.at_once}" if self.options.at_once else "")
            out, error = told("sbatch", "--parsable", f"--array={spec}", f"--output={self.work.path('log', '%A_%a')}", *self.options.sbatch,
                              os.path.join(HERE, "task.sh"), os.path.join(HERE, "pieces.py"), self.work.folder, str(offset))
            if out is None:
                print(f"cluster: sbatch: {error}", file=sys.stderr)
                return False
            job = out.strip().split(";")[0]
            self.jobs.append((job, offset))
            with open(self.path, "a", encoding="utf-8") as file:
                file.write(json.dumps([job, offset]) + "\n")
        return True

    def waiting(self):
        """The pieces that wait or run, each with its job; None where the controller does not say."""
        found = {}
        for job, offset in self.jobs:
            out, error = told("squeue", "--noheader", "--job", job, "--format=%K")
            if out is None and "Invalid job id" not in error:
                print(f"cluster: squeue: {error}", file=sys.stderr)
                return None
            for line in (out or "").split("\n"):
                for index in numbers_of(line):
                    found[offset + index] = (job, index)
        return found

    def cancel(self, pieces, waiting):
        """Cancels these pieces where they wait or run, and each once."""
        fresh = {waiting[piece] for piece in pieces} - self.cancelled
        self.cancelled |= fresh
        for job in sorted({job for job, _ in fresh}):
            told("scancel", "--quiet", f"{job}_[{ranges(index for of, index in fresh if of == job)}]")
