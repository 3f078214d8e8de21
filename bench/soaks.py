"""Soaks modules with a certificate: schedules and numbers from outside are drawn, and no seed may be broken.

Each of six threads begins at a function that takes numbers alone, with small arguments that keep what the certificate promises. Three of
them are late. Each layout has four cells, so that cells are soon used again. Of the seeds of a module one half draws who makes each step,
and the other half schedules with few switches (`--bias`). A module without such a function is told.
"""
import collections
import concurrent.futures
import os
import re
import subprocess

THREADS, LATE, CELLS = 6, 3, 4
NUMBER = re.compile(r"(i\d+|float|double)$")
FIRST_SEEDS = re.compile(r"runs of (\d+) seeds? from \d+ on: (\d+) cells? claimed, (\d+) freed")
# What a soak said: of how many seeds, what is wrong, and how many cells were claimed and freed in the first of them.
Soak = collections.namedtuple("Soak", "seeds wrong claims frees")


def starts_of(module, certificate):
    """For each function that takes numbers alone its name and arguments, as in the line that begins a thread."""
    promises = {}
    for name, body in re.findall(r"^function (\S+) [^\n]*\n(.*?)^end", certificate, re.M | re.S):
        promises[name] = {value: int(limit) for value, limit in re.findall(r"^param (\S+) .*?below (\d+)", body, re.M)}
    for name, given in re.findall(r"^define [^@\n]*(@[-\w.$]+)\(([^\n]*)\) gc ", module, re.M):
        parameters = [part.split() for part in given.split(", ") if part]
        if all(NUMBER.match(kind) for kind, _ in parameters):
            limits = [2 if kind == "i1" else promises.get(name, {}).get(value, 9) for kind, value in parameters]
            yield f"{name} " + " ".join(str((3 + place) % max(1, min(9, limit))) for place, limit in enumerate(limits))


def trace_of(module, certificate):
    """The trace with which a soak begins; None where no thread can begin. `main` begins one, where there is one."""
    starts = sorted(starts_of(module, certificate), key=lambda line: not line.startswith("@main "))
    if not starts:
        return None
    layouts = re.findall(r"^%([-\w.$]+) = type \{", module, re.M)
    begun = [f"{'start' if place < THREADS - LATE else 'late'} {starts[place % len(starts)].strip()}" for place in range(THREADS)]
    return "\n".join(["trace 2", *(f"pool {layout} {CELLS}" for layout in layouts), *begun, "steps", "end", ""])


def text_of(path):
    with open(path) as file:
        return file.read()


def soaked(options, base, trace, seeds, how):
    """What a soak of a module says, which is at this path with its certificate."""
    path = f"{base}{''.join(how)}.trace"
    with open(path, "w") as out:
        out.write(trace)
    words = ["soak", base + ".ll", path, "--cert", base + ".cert", "--forms", "wide", "--drawn-values", "--explain", "always", *how]
    words += ["--first", str(seeds.start), "--seeds", str(len(seeds)), "--steps", str(options.steps)]
    done = subprocess.run([options.dgc, *words], capture_output=True, text=True)
    counts = FIRST_SEEDS.search(done.stderr)
    is_sound = re.match(rf"sound {len(seeds)} (biased )?seeds\n$", done.stdout)
    said = "" if is_sound else f"{os.path.basename(base)}: {done.stdout.strip()} {done.stderr.strip()}"
    return Soak(len(seeds), said, *(map(int, counts.groups()[1:]) if counts else (0, 0)))


def tried(options, accepted):
    """Soaks all that is accepted, and gives what is wrong."""
    traces = {each.base: trace_of(text_of(each.base + ".ll"), text_of(each.base + ".cert")) for each in accepted}
    wanted = [(base, trace, how) for base, trace in traces.items() if trace for how in ([], ["--bias"])]
    share = -(-options.seeds // len(wanted)) if wanted else 0

    def at(place):
        base, trace, how = wanted[place]
        return soaked(options, base, trace, range(place * share, (place + 1) * share), how)

    with concurrent.futures.ThreadPoolExecutor(options.workers) as pool:
        found = list(pool.map(at, range(len(wanted)))) if share else []
    wrong = [soak.wrong for soak in found if soak.wrong]
    print(f"\n{len(accepted)} with a certificate, of which {len(wanted) // 2} have a function that takes numbers alone")
    print(f"{sum(soak.seeds for soak in found)} seeds of {options.steps} steps, {len(wrong)} soaks broken; of {len(found)} soaks {sum(soak.frees > 0 for soak in found)} "
          f"free cells in their first seeds: {sum(soak.claims for soak in found)} claimed, {sum(soak.frees for soak in found)} freed", flush=True)
    return wrong
