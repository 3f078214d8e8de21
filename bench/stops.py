#!/usr/bin/env python3
"""Lets an actor stop for good at each step of drawn runs, and looks whether the run stays sound.

    stops.py DGC [--traces N] [--seed S] [--steps N]

Draws N accepted modules with a trace of S steps: which function each of 1 to 4 threads begins at, which of them are late, how many
cells there are, and which actor makes each step. Every second module is migrated to opaque pointers. For each step of the trace all
later steps of its actor are left out. Each such trace has to be replayed as `sound`, with status 0. Many replays are made in one
process (cases.c). Prints how many were sound. Ends with 1 where one was not, and says which. For use by hand.
"""
import argparse
import itertools
import os
import random
import sys
import tempfile

from cases import Case, Runner
from drawn import draw_module
from make import shapes_of

SECONDS = 60


def drawn_head(draw, ends):
    """The lines of a trace before its steps, and how many threads there are."""
    names = [draw.choice(list(ends)) for _ in range(draw.randrange(1, 5))]
    starts = [("late" if draw.random() < 0.3 else "start") + f" @{name}" + (f" {draw.randrange(1000)}" if name == "count" else "") for name in names]
    return ["trace 2", f"pool Node {draw.randrange(1, 8)}", f"pool Leaf {draw.randrange(1, 4)}", *starts, "steps"], len(names)


def drawn_actors(draw, threads, steps):
    """Which actor makes each step. An actor makes some steps in a row, so that cycles of the collector go on."""
    actors = [f"t {thread}" for thread in range(threads)] + ["c"]
    found = []
    while len(found) < steps:
        found += [draw.choice(actors)] * draw.randrange(1, 12)
    return found[:steps]


def trace_of(head, actors):
    """The text of a trace in which these actors make the steps."""
    runs = [f"{actor} {len(list(steps))}" for actor, steps in itertools.groupby(actors)]
    return "\n".join([*head, *runs, "end", ""])


def stopped_at(actors, step):
    """The steps without those that this step's actor makes after it."""
    return actors[:step + 1] + [actor for actor in actors[step + 1:] if actor != actors[step]]


def migrated(runner, module, certificate):
    """The text of a module with opaque pointers, and its shapes."""
    texts = {"m.ll": module.encode(), "m.cert": certificate.encode()}
    of_module, of_certificate = runner.run_all([Case(["migrate", "m.ll"], texts), Case(["migrate", "m.ll", "m.cert"], texts)])
    return of_module.stdout.decode(), shapes_of(of_certificate.stdout.decode())


def replays(module, shapes, traces):
    """The replay of each of these traces."""
    texts = {"m.ll": module.encode()} | ({"m.shapes": shapes.encode()} if shapes else {})
    words = ["replay", "m.ll", "m.trace", *(["--shapes", "m.shapes"] if shapes else [])]
    return [Case(words, {**texts, "m.trace": trace.encode()}) for trace in traces]


def main():
    asked = argparse.ArgumentParser()
    asked.add_argument("dgc", type=os.path.abspath)
    asked.add_argument("--traces", type=int, default=200)
    asked.add_argument("--seed", type=int, default=0)
    asked.add_argument("--steps", type=int, default=150)
    options = asked.parse_args()
    draw = random.Random(options.seed)
    stops = wrong = 0
    with tempfile.TemporaryDirectory(dir="/dev/shm" if os.path.isdir("/dev/shm") else None) as folder:
        runner = Runner(options.dgc, folder, SECONDS)
        for number in range(options.traces):
            module, certificate, ends = draw_module(draw)
            head, threads = drawn_head(draw, ends)
            actors = drawn_actors(draw, threads, options.steps)
            module, shapes = migrated(runner, module, certificate) if number % 2 else (module, "")
            left = [stopped_at(actors, step) for step in range(options.steps)]
            ended = runner.run_all(replays(module, shapes, [trace_of(head, one) for one in left]))
            stops += len(left)
            for step, (one, end) in enumerate(zip(left, ended)):
                if end.signal or end.status or not end.stdout.startswith(b"sound %d\n" % len(one)):
                    wrong += 1
                    print(f"trace {number}, {actors[step]} stops after step {step + 1}: {end}")
    print(f"{options.traces} traces, {stops} stops, {wrong} not sound")
    sys.exit(1 if wrong else 0)


if __name__ == "__main__":
    main()
