#!/usr/bin/env python3
"""Tries the arrays on a cluster of Slurm on this machine: a controller and three nodes, of which one dies in the middle.

    try.py DGC [--at-once N] [--cpus "0 1"] [--modules N] [--only WORD ..] [--keep FOLDER]

Each case makes a soak, a hunt or a list of checks by cluster.py and by one call of dgc for each, and compares what they print and how they
end. The soak and the hunt have a bug in a late seed; the list has modules that are accepted, refused and not read, and files that are not there. While the array
runs, a node is killed with all that it runs, or the script that waits is, or the controller; or its time is over before the first answer,
or an answer is cut short, and the script goes on. Where an answer was changed, none may be given. An array has four tasks at most, so that
each case makes two of them. A line is printed for each case: what was killed, how many answers there were then, and how many pieces were
begun again. It ends with 1 where the two are not the same, or where nothing was begun again after a node was killed with a task. It is run
as root; here.sh says which packages it needs.

The pieces call dgc by a script that waits before, so that they last some seconds on every machine. Those of `sound` call it as it is, and
the node dies while seeds are made. A case with a dead node takes three minutes, since Slurm lets a task whose node died wait for two.
--cpus says to which processors the nodes are bound, and --at-once how many tasks of an array run at a time. PORT is that of the controller
(16817), for two clusters at once.
"""
import argparse
import json
import os
import shutil
import signal
import subprocess
import sys
import tempfile
import time

import pieces

HERE = os.path.dirname(os.path.abspath(__file__))
TOP = os.path.dirname(os.path.dirname(HERE))
PLANTED = os.path.join(TOP, "bench", "planted")
SWAP = os.path.join(TOP, "examples", "swap")
PIECES = 8
NODES = 3
WAITING = """#!/bin/sh
# dgc, after some time: a piece of a soak or of a hunt is one call, a piece of a list has 25.
case $1 in soak | hunt) sleep 3 ;; *) sleep 0.1 ;; esac
exec {dgc} "$@"
"""


def read(path):
    try:
        with open(path, "rb") as file:
            return file.read()
    except OSError:
        return b""


# The cluster


class Cluster:
    def __init__(self, folder, cpus):
        self.folder = folder
        self.surroundings = dict(os.environ, SLURM_CONF=os.path.join(folder, "slurm.conf"), ARRAY="5", **({"CPUS": cpus} if cpus else {}))
        self.here("start", str(NODES))
        self.until_idle()

    def here(self, command, *words):
        subprocess.run([os.path.join(HERE, "here.sh"), command, self.folder, *words], env=self.surroundings, check=True, stdout=subprocess.DEVNULL)

    def told(self, *words):
        return subprocess.run(words, env=self.surroundings, capture_output=True, text=True).stdout

    def until_idle(self):
        """Waits until all nodes are there and nothing runs."""
        until = time.monotonic() + 300
        while time.monotonic() < until:
            if self.told("sinfo", "--noheader", "--format=%T %D").split() == ["idle", str(NODES)] and not self.told("squeue", "--noheader").strip():
                return
            time.sleep(0.5)
        sys.exit(f"the nodes are not idle: {self.told('sinfo')}")

    def clear(self):
        """Takes away what the case before left: tasks that wait, and nodes that a controller holds back which was begun again."""
        self.told("scancel", "--partition=all")
        self.told("scontrol", "update", "nodename=" + ",".join(f"n{number}" for number in range(1, NODES + 1)), "state=resume")
        self.until_idle()

    def of_node(self, node):
        """The processes that this cluster runs on a node, and those that started them."""
        marks = {f"SLURMD_NODENAME={node}".encode(), f"SLURM_CONF={self.surroundings['SLURM_CONF']}".encode()}
        tasks = {int(pid) for pid in os.listdir("/proc") if pid.isdigit() and marks <= set(read(f"/proc/{pid}/environ").split(b"\0"))}
        starters = {int(read(f"/proc/{pid}/stat").rpartition(b")")[2].split()[1]) for pid in tasks if read(f"/proc/{pid}/stat")}
        return tasks | {pid for pid in starters if b"slurmstepd" in read(f"/proc/{pid}/comm")}

    def busy(self):
        """The least piece for which a node runs the program, and that node, or none."""
        found = []
        for node in (f"n{number}" for number in range(1, NODES + 1)):
            words = [read(f"/proc/{pid}/cmdline").split(b"\0") for pid in self.of_node(node)]
            numbers = [int(of[-2]) for of in words if any(word.endswith(b"pieces.py") for word in of) and of[-2].isdigit()]
            if numbers and any({b"soak", b"hunt", b"check"} & set(of) for of in words):
                found.append((min(numbers), node))
        return min(found) if found else (None, None)

    def kill_node(self, folder):
        """Kills a node whose piece is not made yet, with all that it runs, at once. Returns its name, or None where there was none in time."""
        until = time.monotonic() + 120
        while time.monotonic() < until:
            number, node = self.busy()
            running = self.of_node(node) if node else set()
            for pid in running:
                send(pid, signal.SIGSTOP)
            if running and str(number) not in answers_in(folder):
                for pid in [int(read(os.path.join(self.folder, f"{node}.pid"))), *running]:
                    send(pid, signal.SIGKILL)
                return node
            for pid in running:
                send(pid, signal.SIGCONT)
            time.sleep(0.02)
        return None

    def begin_node(self, node):
        self.here("node", node)
        self.until_idle()

    def kill_controller(self):
        """Kills the controller. It is begun again after some seconds, and knows its arrays."""
        send(int(read(os.path.join(self.folder, "slurmctld.pid"))), signal.SIGKILL)
        time.sleep(5)
        subprocess.run(["slurmctld", "-f", self.surroundings["SLURM_CONF"]], env=self.surroundings, check=True)


def send(pid, what):
    try:
        os.kill(pid, what)
    except ProcessLookupError:
        pass


# What is asked


def soak_of(late):
    """A soak whose first broken seed, 5068, is in the seventh piece, or one whose seeds are sound, and long."""
    if late:
        module = os.path.join(PLANTED, "root_left_out")
        return [f"{module}.ll", f"{module}.trace", "--steps", "130", "--seeds", "6000"]
    files = [os.path.join(SWAP, "barrier.ll"), os.path.join(SWAP, "two.trace"), "--shapes", os.path.join(SWAP, "swap.shapes")]
    return [*files, "--steps", "100000", "--seeds", str(PIECES * 10)]


def hunt_of(late):
    """A hunt whose first broken seed, 398, is in the seventh piece, or one whose seeds are sound."""
    module = os.path.join(SWAP, "plain.ll" if late else "barrier.ll")
    return [module, "--cert", os.path.join(SWAP, "swap.cert"), "--seeds", "480"]


def list_of(options, folder):
    """A list of checks: most are accepted; some are refused, are not read, or have no file."""
    subprocess.run([sys.executable, os.path.join(TOP, "bench", "generate.py"), "--functions", "400", os.path.join(folder, "drawn")], check=True, stdout=subprocess.DEVNULL)
    good, pairs = os.path.join(folder, "drawn"), []
    with open(os.path.join(SWAP, "plain.ll"), encoding="utf-8") as file:
        text = file.read()
    with open(os.path.join(folder, "cut.ll"), "w", encoding="utf-8") as file:
        file.write(text[:-40])
    for number in range(options.modules):
        kinds = {3: ("plain.ll", SWAP), 11: ("cut.ll", folder), 19: ("none.ll", folder)}
        name, where = kinds.get(number % 25, ("barrier.ll", SWAP))
        module = os.path.join(folder, f"m{number}.ll")
        if number % 25 in kinds or number % 2:
            if name != "none.ll":
                shutil.copy(os.path.join(where, name), module)
            pairs.append((module, os.path.join(SWAP, "swap.cert")))
        else:
            os.symlink(f"{good}.ll", module)
            pairs.append((module, f"{good}.cert"))
    path = os.path.join(folder, "list")
    with open(path, "w", encoding="utf-8") as file:
        file.writelines(f"{module} {cert}\n" for module, cert in pairs)
    return path, pairs


def by_one_call(options, kind, words):
    """What dgc prints by one call of it, of a list by one for each pair; and the status, of a list the highest."""
    if kind != "check":
        done = subprocess.run([options.dgc, kind, *words], capture_output=True, text=True)
        return done.stdout, done.returncode
    told, worst = [], 0
    for line in read(words[0]).decode().splitlines():
        done = subprocess.run([options.dgc, "check", *line.split()], capture_output=True, text=True)
        told += [f"{line.split()[0]}: {said}\n" for said in (done.stdout + done.stderr).splitlines()]
        worst = max(worst, done.returncode)
    return "".join(told), worst


# The cases


def answers_in(folder):
    try:
        return [name for name in os.listdir(os.path.join(folder, "answers")) if name.isdigit()]
    except FileNotFoundError:
        return []


def begun(cluster, words, errors):
    """cluster.py, as it begins."""
    with open(errors, "a", encoding="utf-8") as file:
        return subprocess.Popen([sys.executable, "-S", os.path.join(HERE, "cluster.py"), *words], env=cluster.surroundings, stdout=subprocess.PIPE, stderr=file, text=True)


def made(options, cluster, kind, words, case):
    """What cluster.py prints, its status, what was killed while it ran, when so many answers were there, and how many pieces were begun again."""
    victim, moment = case
    folder = os.path.join(options.folder, f"{kind}.{len(os.listdir(options.folder))}")
    errors = f"{folder}.errors"
    program = options.dgc if "100000" in words else os.path.join(os.path.dirname(options.folder), "dgc-later")
    line = ["--dgc", program, "--pieces", str(PIECES), "--folder", folder, "--each", *(["--at-once", str(options.at_once)] if options.at_once else [])]
    script = begun(cluster, [*line, *(["--wait", "0"] if victim == "time" else []), kind, *words], errors)
    while victim and len(answers_in(folder)) < moment and script.poll() is None:
        time.sleep(0.02)
    there, killed = len(answers_in(folder)), None
    if victim == "node":
        killed = cluster.kill_node(folder)
    elif victim == "controller":
        cluster.kill_controller()
    elif victim in ("script", "time", "answer", "lie"):
        script = begun_again(cluster, script, folder, victim)
    out = script.communicate()[0]
    if killed:
        cluster.begin_node(killed)
    again = sum(json.loads(read(os.path.join(folder, "answers", name)))["began_again"] > 0 for name in answers_in(folder))
    return out, script.returncode, killed, there, again + read(errors).count(b"submitted again")


def begun_again(cluster, script, folder, victim):
    """The script goes on, after it was killed, after its time was over, or after an answer of the whole work was cut short or changed."""
    if victim == "script":
        script.kill()
    out = script.communicate()[0]
    if victim == "time" and (out or script.returncode != 5):
        return script
    answer = os.path.join(folder, "answers", "2" if victim == "answer" else "6")
    if victim == "answer":
        os.truncate(answer, os.path.getsize(answer) // 2)
    if victim == "lie":
        pieces.put(answer, pieces.text_of(answer).replace("seed 5068", "seed 5067").replace("seeds 39 ", "seeds 38 "))
    return begun(cluster, ["--each", "join", folder], f"{folder}.errors")


CASES = {
    "soak-late": ("soak", True, (None, 0)), "soak-late-first": ("soak", True, ("node", 0)), "soak-late-middle": ("soak", True, ("node", 3)),
    "soak-late-last": ("soak", True, ("node", 5)), "soak-late-script": ("soak", True, ("script", 2)), "soak-late-controller": ("soak", True, ("controller", 2)),
    "soak-late-time": ("soak", True, ("time", 0)), "soak-late-answer": ("soak", True, ("answer", 0)), "soak-late-lie": ("soak", True, ("lie", 0)),
    "soak-late-shrink": ("soak", True, ("shrink", 0)),
    "soak-sound-middle": ("soak", False, ("node", 4)),
    "hunt-late": ("hunt", True, (None, 0)), "hunt-late-middle": ("hunt", True, ("node", 3)), "hunt-late-script": ("hunt", True, ("script", 2)),
    "hunt-late-answer": ("hunt", True, ("answer", 0)), "hunt-late-lie": ("hunt", True, ("lie", 0)), "hunt-late-save": ("hunt", True, ("save", 0)),
    "hunt-sound": ("hunt", False, (None, 0)),
    "check": ("check", False, (None, 0)), "check-first": ("check", False, ("node", 0)), "check-middle": ("check", False, ("node", 4)),
    "check-script": ("check", False, ("script", 3)),
}


EVENTS = {
    None: "nothing was killed", "shrink": "nothing was killed", "save": "nothing was killed", "node": "node {} was killed", "controller": "the controller was killed",
    "script": "the script was killed", "time": "its time was over", "answer": "an answer was cut short", "lie": "an answer was changed",
}


def compare(options, cluster, name, known):
    """Makes a case, prints its line, and returns whether all is as it should be."""
    kind, late, case = CASES[name]
    cluster.clear()
    began = time.monotonic()
    words = {"soak": soak_of, "hunt": hunt_of}[kind](late) if kind != "check" else [options.list]
    saves = [os.path.join(options.folder, f"{name}.{by}") for by in ("one", "many")] if case[0] in ("shrink", "save") else []
    asked = [[*words, *(["--shrink"] if case[0] == "shrink" else []), *(["--save", save] if save else [])] for save in saves or [None, None]]
    if (kind, late, len(saves)) not in known:
        known[kind, late, len(saves)] = by_one_call(options, kind, asked[0])
    wanted, status = known[kind, late, len(saves)]
    out, ended, node, there, again = made(options, cluster, kind, asked[1], case)
    if kind == "check":
        body, _, last = out.rstrip("\n").rpartition("\n")
        out = body + "\n" if last.startswith(f"pairs {options.modules} yes ") else out
    wanted, status = ("", 5) if case[0] == "lie" else (wanted, status)
    same = (out, ended) == (wanted, status) and len({read(save) for save in saves}) < 2
    right = same and (case[0] != "node" or again > 0) and (not late or status in (1, 5))
    said = (wanted.strip().replace("\n", ", ") or "none") if kind != "check" else f"{len(wanted.splitlines())} lines"
    print(f"{'ok   ' if right else 'WRONG'} {name}: {said}, status {status}; {EVENTS[case[0]].format(node)} at {there} answers", end="; ")
    print(f"begun again {again}; {time.monotonic() - began:.0f} s", flush=True)
    if not same:
        print(f"      by the array: {out.strip()[:300]}, status {ended}", flush=True)
    return right


def main():
    parser = argparse.ArgumentParser(description=__doc__.split("\n")[0])
    parser.add_argument("dgc", type=os.path.abspath)
    parser.add_argument("--modules", type=int, default=200)
    parser.add_argument("--at-once", type=int)
    parser.add_argument("--cpus")
    parser.add_argument("--only", nargs="+", choices=list(CASES), default=list(CASES))
    parser.add_argument("--keep")
    options = parser.parse_args()
    scratch = options.keep or tempfile.mkdtemp(prefix="dgc-try-")
    options.folder = os.path.join(scratch, "work")
    os.makedirs(options.folder)
    os.makedirs(os.path.join(scratch, "modules"))
    options.list, _ = list_of(options, os.path.join(scratch, "modules"))
    later = os.path.join(scratch, "dgc-later")
    with open(later, "w", encoding="utf-8") as file:
        file.write(WAITING.format(dgc=options.dgc))
    os.chmod(later, 0o755)
    cluster, known = Cluster(os.path.join(scratch, "slurm"), options.cpus), {}
    try:
        right = [compare(options, cluster, name, known) for name in options.only]
    finally:
        cluster.here("stop")
        if not options.keep:
            shutil.rmtree(scratch, ignore_errors=True)
    print(f"{len(right)} cases, {right.count(False)} wrong")
    sys.exit(not all(right))


if __name__ == "__main__":
    main()
