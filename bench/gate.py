#!/usr/bin/env python3
"""gate.py: runs the gate from nothing (`rt ci --anew`) and writes docs/GATE.md: its processor time, by crate and by what it was
spent on, the longest chain of crates that wait for one another, and the memory of its provers.

Run it at the top of the repository. It looks at the running provers twice a second, so a crate's time may be half a
second too small for each run of the prover; the total is exact. The gate's output goes to out/gate.log.
"""
import collections
import functools
import os
import resource
import subprocess
import sys
import time

TICK = os.sysconf("SC_CLK_TCK")
KINDS = ["proof", "tests", "edits"]
# So many crates are listed by what rt plans for them.
PLANS = 8


def descends(process, top):
    """Whether a process is the top one, or was started by it or by one that it started."""
    while process > 1:
        if process == top:
            return True
        with open(f"/proc/{process}/stat") as file:
            process = int(file.read().rpartition(")")[2].split()[1])
    return False


def provers(top):
    """Each running prover that the top process started: its process, its crate, what it works on, its processor time so far, and the
    most memory that it held."""
    for entry in os.listdir("/proc"):
        if not entry.isdigit():
            continue
        try:
            with open(f"/proc/{entry}/cmdline", "rb") as file:
                words = file.read().decode("utf-8", "replace").split("\0")
            if not words[0].endswith("/rattle") or "--crate-name" not in words:
                continue
            with open(f"/proc/{entry}/stat") as file:
                fields = file.read().rpartition(")")[2].split()
            folder = os.readlink(f"/proc/{entry}/cwd")
            if not descends(int(entry), top):
                continue
        except (OSError, ValueError, IndexError):
            continue
        crate = words[words.index("--crate-name") + 1]
        edits = "rt-edit" in folder
        kind = "edits" if edits else "tests" if "--test" in words else "proof"
        spent = (int(fields[11]) + int(fields[12])) / TICK
        yield (entry, fields[19]), crate, kind, spent, most_memory(entry)


def most_memory(process):
    """The most memory that a process has held so far, in MB."""
    try:
        with open(f"/proc/{process}/status") as file:
            words = file.read().partition("VmHWM:")[2].split()
        return int(words[0]) // 1024 if words else 0
    except OSError:
        return 0


def run():
    """Runs the gate. Returns its status, its last line, and the seconds and the memory of each prover."""
    seen = {}
    os.makedirs("out", exist_ok=True)
    with open("out/gate.log", "w") as log:
        gate = subprocess.Popen(["rt", "ci", "--anew"], stdout=log, stderr=subprocess.STDOUT)
        while gate.poll() is None:
            for process, crate, kind, spent, memory in provers(gate.pid):
                seen[process] = (crate, kind, spent, memory)
            time.sleep(0.5)
    with open("out/gate.log") as log:
        last = log.read().rstrip("\n").rpartition("\n")[2]
    return gate.returncode, last, seen


def seconds_of(seen):
    """The seconds of each crate, by what they were spent on."""
    spent = collections.defaultdict(lambda: collections.Counter())
    for crate, kind, seconds, _ in seen.values():
        spent[crate][kind] += seconds
    return spent


def libraries():
    """The crates of the repository that each crate uses."""
    listed = {}
    with open("crates.txt") as file:
        for line in file:
            name, colon, uses = line.partition("#")[0].partition(":")
            if colon:
                listed[name.strip()] = uses.split()
    return {crate: [use for use in uses if use in listed] for crate, uses in listed.items()}


def longest_chain(spent):
    """The crates of the longest chain of proofs that wait for one another, lowest first, and its seconds."""
    uses = libraries()

    @functools.lru_cache(maxsize=None)
    def chain(crate):
        below = max((chain(use) for use in uses[crate]), default=(0, []))
        return below[0] + spent[crate]["proof"], below[1] + [crate]

    return max(chain(crate) for crate in uses)


def lines_of(crate, ending):
    """How many lines the files of a crate with this ending have."""
    count = 0
    for part in ("src", "specs", "proofs"):
        for at, _, names in os.walk(f"crates/{crate}/{part}"):
            for name in names:
                if name.endswith(ending):
                    with open(f"{at}/{name}", "rb") as file:
                        count += file.read().count(b"\n")
    return count


def plans():
    """What rt plans for each crate in GB but for the kit's crates: 1, 1 for 1,000 lines of code, 0.2 for 1,000 of definitions and
    proofs, and 0.08 for 1,000 lines of code below. The most comes first."""
    uses = libraries()
    code = {crate: lines_of(crate, ".rt") for crate in uses}

    @functools.lru_cache(maxsize=None)
    def below(crate):
        return frozenset(use for one in uses[crate] for use in [one, *below(one)])

    planned = {crate: 1 + code[crate] / 1e3 + lines_of(crate, ".antt") / 5e3 + sum(code[use] for use in below(crate)) * 8e-5
               for crate in uses}
    return sorted(planned.items(), key=lambda one: -one[1])


def table(spent):
    """The rows of the table, the crate with the most time first."""
    edits = {crate: len([f for f in os.listdir(f"crates/{crate}/must-fail") if f.endswith(".edit")])
             for crate in spent if os.path.isdir(f"crates/{crate}/must-fail")}
    rows = sorted(spent.items(), key=lambda row: -sum(row[1].values()))
    for crate, by in rows:
        yield f"| `{crate}` | " + " | ".join(f"{by[kind]:.0f}" if by[kind] else "" for kind in KINDS) + f" | {edits.get(crate, 0) or ''} |"
    sums = [sum(by[kind] for _, by in rows) for kind in KINDS]
    yield "| all | " + " | ".join(f"{total:.0f}" for total in sums) + f" | {sum(edits.values())} |"


def main():
    before = time.time()
    status, last, seen = run()
    wall = time.time() - before
    used = resource.getrusage(resource.RUSAGE_CHILDREN)
    cores = len(os.sched_getaffinity(0))
    spent = seconds_of(seen)
    chained, chain = longest_chain(spent)
    memory, largest = max((held, crate) for crate, _, _, held in seen.values())
    planned = plans()
    listed = ", ".join(f"`{crate}` {gigabytes:.1f}" for crate, gigabytes in planned[:PLANS])
    text = f"""# The gate

The gate is `rt ci`. It proves each crate, tries the edits that the prover has to refuse, and runs the tests and
the programs as two compilers build them. This page is written by `bench/gate.py`, which runs the gate from nothing.

- Last line: `{last}`, status {status}.
- Processor time: {used.ru_utime + used.ru_stime:.0f} s ({used.ru_utime:.0f} s in the user, {used.ru_stime:.0f} s in the system).
- Wall time: {wall / 60:.0f} minutes on {cores} cores.
- The longest chain of crates that wait for one another: {chained:.0f} s, {" → ".join(f"`{crate}`" for crate in chain)}.
- The most memory of one prover: {memory / 1000:.1f} GB (`{largest}`).
- `rt` starts a proof only where the memory that it plans for it is free. Its plan goes by lines and not by what a proof holds: {listed} GB,
  and up to 2.5 GB more for crates of the kit. With `RT_JOBS` set it works on that many things at a time and plans no memory.

Processor time differs from run to run, by a fifth and more where other programs run beside it.

Seconds of processor time by crate. `edits` has the proof of the crate once more, over which the edits are tried, and the edits.

| Crate | Proof | Tests | Edits | Number of edits |
|---|---|---|---|---|
"""
    with open("docs/GATE.md", "w") as file:
        file.write(text + "\n".join(table(spent)) + "\n")
    print(last)
    sys.exit(status)


if __name__ == "__main__":
    main()
