"""Runs of a program, many in one process (cases.c), each with its time and memory, on files that are given as texts."""
import fcntl
import os
import select
import signal
import struct
import subprocess
from dataclasses import dataclass, field

HERE = os.path.dirname(os.path.abspath(__file__))
# what cases.c tells of a case that has ended, after which come the bytes of both outputs
TOLD = struct.Struct("=IIIIII")
# how many bytes a pipe takes, so that the words of some hundred cases wait there
PIPE = 1 << 20
# after a case with this much memory the program is started anew, since some of it may count for the next case
MOST_KILOBYTES = 1 << 19


@dataclass
class Case:
    """The words after the program's name, the texts of the files in its folder, and the number of a request for memory that is refused.

    All requests after it are refused too, or it alone. 0 is none.
    """
    words: list
    texts: dict = field(default_factory=dict)
    request: int = 0
    are_all_refused: bool = False

    @property
    def way(self):
        return "from" if self.are_all_refused else "at"


@dataclass
class Ended:
    """How a case ended, its processor time, the most memory that its process had, how many requests were refused, and what it wrote.

    `saved` is what it wrote to the file `saved` in its folder, which is taken away then.
    """
    status: int
    signal: int
    seconds: float
    kilobytes: int
    refused: int
    stdout: bytes
    stderr: bytes
    saved: bytes = None


def taken(path):
    """What a file has, which is removed; None if there is none."""
    try:
        with open(path, "rb") as file:
            text = file.read()
        os.remove(path)
        return text
    except FileNotFoundError:
        return None


class Runner:
    """Runs a program in folders of its own: many cases in one process, or one in a process of its own."""

    def __init__(self, program, folder, seconds, *libraries):
        self.program, self.folder, self.seconds = program, folder, seconds
        self.library = os.path.join(folder, "cases.so")
        sources = [os.path.join(HERE, name) for name in ("cases.c", *libraries)]
        subprocess.run(["cc", "-O2", "-shared", "-fPIC", "-o", self.library, *sources, "-ldl"], check=True)
        self.written = []
        self.begun, self.status = None, 0

    def folder_of(self, number, texts):
        """The folder of this number, in which there are these files and no others that were written here."""
        folder = os.path.join(self.folder, str(number))
        while len(self.written) <= number:
            os.makedirs(os.path.join(self.folder, str(len(self.written))))
            self.written.append({})
        written = self.written[number]
        for name in [name for name in written if name not in texts]:
            os.remove(os.path.join(folder, name))
            del written[name]
        for name, text in texts.items():
            if written.get(name) is not text:
                with open(os.path.join(folder, name), "wb") as out:
                    out.write(text)
                written[name] = text
        return folder

    def begin(self):
        """Starts the program, which waits for cases then."""
        (cases_in, self.cases), (self.ends, ends_out) = os.pipe(), os.pipe()
        fcntl.fcntl(self.cases, fcntl.F_SETPIPE_SZ, PIPE)
        environment = {**os.environ, "LD_PRELOAD": self.library, "CASES_IN": str(cases_in), "CASES_OUT": str(ends_out),
                       "CASES_SECONDS": str(int(self.seconds))}
        self.begun = subprocess.Popen([self.program], env=environment, stdin=subprocess.DEVNULL, stdout=subprocess.DEVNULL,
                                      stderr=subprocess.DEVNULL, pass_fds=(cases_in, ends_out))
        os.close(cases_in)
        os.close(ends_out)

    def end(self):
        """Lets the program end. Returns its status, or less than 0 for a signal."""
        os.close(self.cases)
        os.close(self.ends)
        status, self.begun = self.begun.wait(), None
        return status

    def received(self, wanted):
        """So many bytes of what the program tells, or None where it has ended."""
        found = b""
        while len(found) < wanted:
            more = os.read(self.ends, wanted - len(found))
            if not more:
                return None
            found += more
        return found

    def next_end(self):
        """How the next case ended; None where the program has ended instead."""
        told = self.received(TOLD.size)
        if told is None:
            return None
        status, microseconds, kilobytes, refused, *sizes = TOLD.unpack(told)
        printed = [self.received(size) for size in sizes]
        return Ended(status, 0, microseconds / 1e6, kilobytes, refused, *printed) if None not in printed else None

    def send(self, folders, cases):
        """Tells the program to run these cases in these folders."""
        lines = b""
        for folder, case in zip(folders, cases):
            line = b"".join(os.fsencode(word) + b"\0" for word in (folder, str(case.request), case.way, *case.words))
            lines += struct.pack("=I", len(line)) + line
        assert len(lines) <= PIPE
        os.write(self.cases, lines)

    def run_all(self, cases):
        """How each of these cases ends. One that ends the process is run once more in a process of its own."""
        folders = [self.folder_of(number, case.texts) for number, case in enumerate(cases)]
        ended, is_one_by_one = [], False
        while len(ended) < len(cases):
            first = len(ended)
            last = first + 1 if is_one_by_one else len(cases)
            ended += self.ends_of(folders[first:last], cases[first:last])
            if not self.begun and len(ended) < last:
                # the process tells of several cases at once: which of them has ended it is seen when they are run one by one
                if is_one_by_one:
                    ended.append(self.ended_alone(folders[first], cases[first]))
                is_one_by_one = not is_one_by_one
        for one, folder, case in zip(ended, folders, cases):
            if "saved" in case.words:
                one.saved = taken(os.path.join(folder, "saved"))
        return ended

    def ends_of(self, folders, cases):
        """How the first ones of these cases end: all of them, or those of which the process told before it ended."""
        if not self.begun:
            self.begin()
        self.send(folders, cases)
        ended = []
        while len(ended) < len(cases) and (one := self.next_end()):
            ended.append(one)
        if len(ended) < len(cases) or any(one.kilobytes > MOST_KILOBYTES for one in ended):
            self.status = self.end()
        return ended

    def ended_alone(self, folder, case):
        """How a case ends that the process did not outlive."""
        ended = self.alone(folder, case)
        if self.status < 0 and not ended.signal:
            ended.signal = -self.status
        return ended

    def alone(self, folder, case):
        """Runs a case in a process of its own, and ends it where it comes to no end."""
        outputs = [os.open(os.path.join(self.folder, name), os.O_RDWR | os.O_CREAT | os.O_TRUNC, 0o600) for name in ("stdout", "stderr")]
        given = {"LD_PRELOAD": self.library, "REFUSE_" + case.way.upper(): str(case.request)} if case.request else {}
        begun = subprocess.Popen([self.program, *case.words], cwd=folder, env={**os.environ, **given}, stdin=subprocess.DEVNULL,
                                 stdout=outputs[0], stderr=outputs[1])
        self.end_late(begun.pid)
        _, status, used = os.wait4(begun.pid, 0)
        begun.returncode = os.waitstatus_to_exitcode(status)
        printed = [os.pread(output, 1 << 20, 0) for output in outputs]
        for output in outputs:
            os.close(output)
        return Ended(begun.returncode, max(0, -begun.returncode), used.ru_utime + used.ru_stime, used.ru_maxrss, 0, *printed)

    def end_late(self, pid):
        """Waits for a run, and ends it after this many seconds."""
        handle = os.pidfd_open(pid)
        try:
            if not select.select([handle], [], [], self.seconds)[0]:
                signal.pidfd_send_signal(handle, signal.SIGKILL)
        finally:
            os.close(handle)
