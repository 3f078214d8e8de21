"""Runs of `dgc` on texts that stand in no file yet, each with a limit of time and in a folder of its own."""
import asyncio
import collections
import contextlib
import json
import os
import re
import signal
import tempfile

MOST = 1 << 26      # how many bytes of an output are read at most
CHUNK = 1 << 20
RUNS = 2            # how many runs go on at a time
TEXTS = "texts"     # the folder of the texts in that of a run
GRACE = 5           # for how many seconds a run may end after it was killed
PLAIN = re.compile(r"[^\W_][\w.+-]*")

Ran = collections.namedtuple("Ran", "status out err")


class Trouble(Exception):
    """Why the program gave no answer, in a sentence."""


async def read_all(stream):
    """What a stream has until it ends."""
    held = bytearray()
    while chunk := await stream.read(CHUNK):
        held += chunk
        if len(held) > MOST:
            raise Trouble(f"printed more than {MOST >> 20} MiB")
    return bytes(held)


async def ending(process):
    """What a run prints, and its status, once it has ended."""
    return await asyncio.gather(read_all(process.stdout), read_all(process.stderr), process.wait())


def name_of(path, taken):
    """The name by which a run knows a file: its own, so that explanations say it, where that is plain and no other one of the run."""
    name = os.path.basename(path)
    return name if PLAIN.fullmatch(name) and name not in taken else f"text{len(taken)}"


async def end(process):
    """Ends a run, with all that it began."""
    if process.returncode is None:
        with contextlib.suppress(ProcessLookupError):
            if hasattr(os, "killpg"):
                os.killpg(process.pid, signal.SIGKILL)
            else:
                process.kill()
    with contextlib.suppress(asyncio.TimeoutError):
        await asyncio.wait_for(process.wait(), GRACE)


@contextlib.contextmanager
def folder_of(files):
    """A folder for a run, with its texts."""
    try:
        with tempfile.TemporaryDirectory(prefix="dgc-editor-") as folder:
            os.mkdir(os.path.join(folder, TEXTS))
            for name, data in files.items():
                with open(os.path.join(folder, TEXTS, name), "wb") as file:
                    file.write(data)
            yield folder
    except OSError as fault:
        raise Trouble(f"cannot be given its texts: {fault}") from None


def bytes_in(path):
    with open(path, "rb") as file:
        return file.read()


class Program:
    """The program by its path, and for how many seconds it may run."""

    def __init__(self, path, seconds):
        self.path, self.seconds = path, seconds
        self.gate = asyncio.Semaphore(RUNS)
        self.pages, self.given_up = {}, set()

    async def begun(self, folder, words):
        """A run as it begins. Where nobody waits for it any more it is ended once it has begun, since a beginning cannot be ended."""
        starting = asyncio.ensure_future(asyncio.create_subprocess_exec(
            self.path, *words, cwd=folder, start_new_session=True, limit=CHUNK,
            stdin=asyncio.subprocess.DEVNULL, stdout=asyncio.subprocess.PIPE, stderr=asyncio.subprocess.PIPE))
        try:
            return await asyncio.shield(starting)
        except (OSError, ValueError) as fault:
            raise Trouble(f"cannot be started: {fault.strerror if isinstance(fault, OSError) else fault}") from None
        except asyncio.CancelledError:
            giving_up = asyncio.ensure_future(self.give_up(starting))
            self.given_up.add(giving_up)
            giving_up.add_done_callback(self.given_up.discard)
            raise

    @staticmethod
    async def give_up(starting):
        """Ends a run as soon as it has begun."""
        with contextlib.suppress(OSError, ValueError):
            await end(await starting)

    async def finish(self):
        """Waits until all runs that were given up are ended."""
        if self.given_up:
            await asyncio.wait(self.given_up, timeout=GRACE)

    async def run(self, folder, *words):
        """One run of the program."""
        async with self.gate:
            process = await self.begun(folder, words)
            try:
                out, err, status = await asyncio.wait_for(ending(process), self.seconds)
            except asyncio.TimeoutError:
                raise Trouble(f"gave no answer in {self.seconds:g} seconds, and was ended") from None
            finally:
                await end(process)
        if status < 0:
            raise Trouble(f"died by signal {-status}")
        return Ran(status, out, err.decode(errors="replace"))

    async def answer(self, command, files, words):
        """What it writes as JSON of these files, which are bytes by their names, and what it prints."""
        with folder_of(files) as folder:
            written = os.path.join(folder, "answer.json")
            ran = await self.run(os.path.join(folder, TEXTS), command, *words, "--json", written, "--explain", "never")
            return self.told(ran, written), ran.out

    async def fix(self, files, words):
        """The lines of the safe fixes of a module and its certificate, and the two texts with them; or no lines where the texts stay."""
        with folder_of(files) as folder:
            written = [os.path.join(folder, name) for name in ("module", "certificate")]
            ran = await self.run(os.path.join(folder, TEXTS), "fix", *words, "--module", written[0], "--cert", written[1], "--explain", "never")
            lines = [line for line in ran.out.decode(errors="replace").split("\n") if line.startswith("fixed ")]
            return (lines, [bytes_in(path) for path in written]) if lines and ran.status in (0, 1) else ([], [])

    @staticmethod
    def told(ran, written):
        """The answer that a run has written."""
        if ran.status == 3:
            raise Trouble("was refused memory")
        try:
            told = json.loads(bytes_in(written))
        except (OSError, ValueError, RecursionError):
            said = ran.err.strip().split("\n")[0]
            raise Trouble(f"ended with status {ran.status} and wrote no answer" + (f": {said}" if said else "")) from None
        is_told = isinstance(told, dict) and told.get("format") == 1 and told.get("status") == ran.status
        if not is_told or (told.get("verdict") == "yes") != (ran.status == 0):
            raise Trouble("wrote an answer of another format")
        return told

    async def explain(self, code):
        """The page of a code, or None where there is none."""
        if code not in self.pages:
            ran = await self.run(tempfile.gettempdir(), "explain", code)
            self.pages[code] = ran.out.decode(errors="replace") if ran.status == 0 else None
        return self.pages[code]
