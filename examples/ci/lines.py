#!/usr/bin/env python3
"""Runs the shell lines of this folder's workflows, and the hook, in a repository of its own: lines.py DGC

The repository has examples/swap: first a module that is accepted, then one that is refused, then one without its certificate. Each line has
to end with 0 on the first. On the second the check fails and the hook too, on the third the search for certificates.
"""
import os
import re
import shutil
import subprocess
import sys
import tempfile

HERE = os.path.dirname(os.path.abspath(__file__))
SWAP = os.path.join(os.path.dirname(HERE), "swap")


def blocks(name):
    """The shell lines of a workflow: each block after `run: |`, or of a list of scripts."""
    with open(os.path.join(HERE, name)) as file:
        lines = file.read().split("\n")
    found, at = [], 0
    while at < len(lines):
        opened = re.match(r"( *)(?:run: |- )\|$", lines[at])
        at += 1
        if not opened:
            continue
        block, inside = [], len(opened[1]) + 2
        while at < len(lines) and (not lines[at].strip() or lines[at].startswith(" " * inside)):
            block.append(lines[at][inside:])
            at += 1
        found.append("\n".join(block))
    return found


def git(folder, *words):
    done = ["git", "-c", "user.name=t", "-c", "user.email=t@t", *words]
    return subprocess.run(done, cwd=folder, capture_output=True, text=True)


def repository(folder, module, with_cert):
    """A repository with one module."""
    shutil.rmtree(folder, ignore_errors=True)
    os.makedirs(folder)
    git(folder, "init", "-q")
    shutil.copy(os.path.join(SWAP, module), os.path.join(folder, "swap.ll"))
    if with_cert:
        shutil.copy(os.path.join(SWAP, "swap.cert"), os.path.join(folder, "swap.cert"))
    git(folder, "add", ".")


def statuses(folder, dgc, shell, name):
    """What the blocks of a workflow end with. GitHub runs them by `bash -e`."""
    surroundings = dict(os.environ, DGC=dgc)
    return [subprocess.run([*shell, "-c", block], cwd=folder, env=surroundings, capture_output=True).returncode for block in blocks(name)]


def main():
    if len(sys.argv) != 2:
        sys.exit(__doc__)
    dgc, wrong = os.path.abspath(sys.argv[1]), 0
    wanted = {
        ("barrier.ll", True): {"github.yml": [0, 0, 0], "gitlab-ci.yml": [0, 0], "hook": 0},
        ("plain.ll", True): {"github.yml": [0, 1, 0], "gitlab-ci.yml": [0, 1], "hook": 1},
        ("barrier.ll", False): {"github.yml": [0, 0, 1], "gitlab-ci.yml": [0, 0], "hook": 0},
    }
    with tempfile.TemporaryDirectory() as scratch:
        folder = os.path.join(scratch, "repository")
        for (module, with_cert), want in wanted.items():
            repository(folder, module, with_cert)
            said = {name: statuses(folder, dgc, ["bash", "-e"] if name == "github.yml" else ["sh"], name) for name in ("github.yml", "gitlab-ci.yml")}
            shutil.copy(os.path.join(HERE, "pre-commit"), os.path.join(folder, ".git", "hooks", "pre-commit"))
            os.chmod(os.path.join(folder, ".git", "hooks", "pre-commit"), 0o755)
            os.environ["DGC"] = dgc
            said["hook"] = git(folder, "commit", "-qm", "module").returncode
            for name, status in want.items():
                same = said[name] == status
                wrong += not same
                print(f"{'ok   ' if same else 'WRONG'} {name} {module}{'' if with_cert else ' without its certificate'}: {said[name]}")
    sys.exit(wrong != 0)


if __name__ == "__main__":
    main()
