#!/usr/bin/env python3
"""Looks at the line that a terminal shows while `dgc` works, on pseudo-terminals.

    terminal.py DGC [--functions N] [--only WORD ..]

Makes a long command of each kind, and stops it for a second once it works, so that no machine is too quick. Where its standard error is a
terminal, the line has to appear after a second and to be gone at the end, and the answer comes then; an explanation comes after that.
Standard output has to be the same as where there is no terminal, and there nothing may be written to standard error. Looks too at a
short command, of which nothing is shown, and at a terminal that goes away. Prints a line for each, `as wanted` or what was written, and
ends with status 1 where one is not as wanted. For use by hand.
"""
import argparse
import os
import re
import signal
import subprocess
import sys
import tempfile
import threading
import time
import tty

from replays import MODULE

HERE = os.path.dirname(os.path.abspath(__file__))
SWAP = os.path.join(HERE, "..", "examples", "swap", "typed")
# how long a command is stopped, and after how much processor time
STOP, WORKED = 1.2, 0.05
CLEARED = rb"\r\x1b\[K"
SEEDS = rb"\d+ of \d+ seeds, \d+ a second, \d+ s left"
REFUSED = """define i1 @refused() gc "shadow-stack" {
entry:
  %c = icmp eq %Node** @g, null
  ret i1 %c
}
"""
TICKS = os.sysconf("SC_CLK_TCK")
# what each command shows; the files are those of write_files
COMMANDS = {
    "check": (rb"check: [1-9]\d* s", "check long.ll long.cert"),
    "check, refused": (rb"check: [1-9]\d* s", "check refused.ll refused.cert"),
    "make": (rb"make: [1-9]\d* s", "make long.ll"),
    "recheck": (rb"recheck: [1-9]\d* s", "recheck long.ll long.cert none.edits"),
    "migrate": (rb"migrate: [1-9]\d* s", "migrate long.ll"),
    "replay": (rb"replay: [1-9]\d* s", "replay spin.ll spin.trace"),
    "run": (rb"run: [1-9]\d* s", "run barrier.ll swap.cert swap.trace --turns 4294967295 --steps 400000"),
    "soak": (SEEDS, "soak spin.ll spin.trace --seeds 1500 --steps 1000 --explain never"),
    "hunt": (SEEDS, "hunt spin.ll --seeds 1500 --steps 1000"),
}


class Ran:
    """What a command wrote to its outputs, with its status, and when the first bytes came to the terminal."""

    def __init__(self, words, outputs, is_stopped=True, is_left=False):
        self.master, slave = os.openpty()
        tty.setraw(slave)
        self.bytes, self.first = b"", None
        with tempfile.TemporaryFile() as out, tempfile.TemporaryFile() as err:
            stream = {"terminal": slave, "out": out, "err": err}
            self.began = time.monotonic()
            child = subprocess.Popen(words, stdin=subprocess.DEVNULL, stdout=stream[outputs[0]], stderr=stream[outputs[1]], env={**os.environ, "NO_COLOR": "1"})
            os.close(slave)
            reader = threading.Thread(target=self.read)
            if is_left:
                self.wait_for_work(child)
                os.close(self.master)
            else:
                reader.start()
            if is_stopped:
                self.stop(child)
            self.status = child.wait()
            if not is_left:
                reader.join()
                os.close(self.master)
            self.out, self.err = (os.pread(file.fileno(), 1 << 30, 0) for file in (out, err))

    def read(self):
        """Reads what comes to the terminal, until nobody has it open."""
        while True:
            try:
                piece = os.read(self.master, 1 << 16)
            except OSError:
                return
            if self.first is None:
                self.first = time.monotonic() - self.began
            self.bytes += piece

    def wait_for_work(self, child):
        """Waits until the command has worked for a while."""
        while child.poll() is None:
            with open(f"/proc/{child.pid}/stat") as stat:
                times = stat.read().rpartition(")")[2].split()
            if (int(times[11]) + int(times[12])) / TICKS >= WORKED:
                return
            time.sleep(0.005)

    def stop(self, child):
        """Stops the command for a while, once it works."""
        self.wait_for_work(child)
        child.send_signal(signal.SIGSTOP)
        time.sleep(STOP)
        child.send_signal(signal.SIGCONT)

    def __str__(self):
        first = "never" if self.first is None else f"{self.first:.1f} s"
        return f"status {self.status}, terminal {self.bytes[:200]!r} from {first}, {self.out[:60]!r}, {self.err[:60]!r}"


def write_files(folder, functions):
    """Writes the files of the commands."""
    subprocess.run([sys.executable, os.path.join(HERE, "generate.py"), "--functions", str(functions), "long"], cwd=folder, check=True)
    texts = {"spin.ll": MODULE, "none.edits": "", "spin.trace": "trace 1\npool Node 100\nstart @spin\nstart @spin\nsteps\n" + "t 0 3000\nc 2000\nt 1 3000\n" * 400 + "end\n",
             "swap.trace": "trace 1\npool Node 1000\nstart @swap\nstart @swap\nsteps\nend\n"}
    for name in ("barrier.ll", "swap.cert"):
        with open(os.path.join(SWAP, name)) as file:
            texts[name] = file.read()
    with open(os.path.join(folder, "long.ll")) as module, open(os.path.join(folder, "long.cert")) as cert:
        texts["refused.ll"] = module.read() + REFUSED
        texts["refused.cert"] = cert.read() + "function @refused none\nend\n"
    for name, text in texts.items():
        with open(os.path.join(folder, name), "w") as out:
            out.write(text)


def steady(text):
    """What is the same in each run: a run does not say how many turns its collector makes."""
    return re.sub(rb"collector turns \d+ cycles \d+", b"collector", text)


def look(told, wanted, ran):
    """Prints whether a run is as wanted, and returns that."""
    is_wanted = bool(wanted)
    print(f"{told}: {'as wanted' if is_wanted else ran}", flush=True)
    return is_wanted


def on_terminals(dgc, command):
    """Makes a command without a terminal, with one for its standard error, and with one for both. Returns whether all is as wanted."""
    line, words = COMMANDS[command]
    words = [dgc, *words.split()]
    plain = Ran(words, ("out", "err"))
    is_refused = "refused" in command
    good = plain.status == int(is_refused) and plain.out and not plain.err and not plain.bytes
    alike = look(f"{command}, no terminal", good, plain)
    told = b""
    if is_refused:
        told = Ran([*words, "--explain", "always"], ("out", "err"), is_stopped=False).err
    shown = rb"(\r" + line + rb"\x1b\[K)+" + CLEARED
    errors = Ran(words, ("out", "terminal"))
    good = errors.status == plain.status and steady(errors.out) == steady(plain.out) and errors.first is not None and errors.first >= 1
    good = good and re.fullmatch(shown + re.escape(told), errors.bytes)
    alike &= look(f"{command}, standard error on a terminal", good, errors)
    both = Ran(words, ("terminal", "terminal"))
    good = both.status == plain.status and re.fullmatch(shown + re.escape(steady(plain.out) + told), steady(both.bytes))
    alike &= look(f"{command}, both on a terminal", good, both)
    gone = Ran(words, ("out", "terminal"), is_left=True)
    # what is explained, is a text that has to be written
    good = gone.status == (4 if told else plain.status) and steady(gone.out) == steady(plain.out)
    return alike & look(f"{command}, the terminal goes away", good, gone)


def main():
    parser = argparse.ArgumentParser(description=__doc__.split("\n")[0])
    parser.add_argument("dgc")
    parser.add_argument("--functions", type=int, default=6000)
    parser.add_argument("--only", nargs="+", default=[""])
    options = parser.parse_args()
    dgc = os.path.abspath(options.dgc)
    with tempfile.TemporaryDirectory() as folder:
        write_files(folder, options.functions)
        os.chdir(folder)
        short = Ran([dgc, "check", "barrier.ll", "swap.cert"], ("out", "terminal"), is_stopped=False)
        alike = look("a short check", short.status == 0 and short.out.startswith(b"yes") and not short.bytes, short)
        for command in COMMANDS:
            if any(word in command for word in options.only):
                alike &= on_terminals(dgc, command)
        os.chdir(HERE)
    sys.exit(0 if alike else 1)


if __name__ == "__main__":
    main()
