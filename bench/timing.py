"""The time that a command takes, for the scripts beside this one."""
import subprocess
import time


def timed(command):
    """The wall time of a command in seconds, and what it printed."""
    start = time.perf_counter()
    run = subprocess.run(command, capture_output=True, text=True)
    return time.perf_counter() - start, (run.stdout + run.stderr).strip()


def fastest(command, runs):
    """The least wall time of a command in seconds, and what it printed last."""
    taken = [timed(command) for _ in range(runs)]
    return min(took for took, _ in taken), taken[-1][1]
