"""Builds native programs of modules, with the runtime in runtime/. For the scripts native*.py.

A module is lowered by `dgc lower` (docs/LOWERING.md), optimised and compiled by one version of LLVM, and linked with the runtime and dgmain.c. That
program takes a trace, as `dgc run` does (docs/NATIVE.md).
"""
import os
import re
import shutil
import subprocess
import sys

TOP = os.path.dirname(os.path.dirname(os.path.abspath(__file__)))
RUNTIME = os.path.join(TOP, "runtime")
RECORDS = os.path.join(TOP, "examples", "records")
PIPELINE = os.path.join(TOP, "examples", "pipeline")
VERSIONS = ["22", "19", "16", "14"]
# Attributes by which a sanitizer looks at a function of the module.
SANITIZED = {"thread": "sanitize_thread", "address": "sanitize_address"}


def newest():
    """The newest version of LLVM that is installed with its clang."""
    found = [version for version in VERSIONS if shutil.which(f"clang-{version}") and shutil.which(f"opt-{version}")]
    if not found:
        sys.exit("no LLVM: apt-get install clang-22 llvm-22")
    return found[0]


def done(words, **more):
    """Runs a program that has to succeed. Gives what it prints."""
    ran = subprocess.run(words, capture_output=True, text=True, **more)
    if ran.returncode:
        sys.exit(f"{' '.join(words)}: status {ran.returncode}\n{ran.stdout[-2000:]}{ran.stderr[-2000:]}")
    return ran.stdout


def lowered(dgc, module, base, records=False, sanitizer=None):
    """The text of a module for LLVM: base.low.ll. module: the words after `dgc lower`, as the paths of a module and its certificate."""
    text = done([dgc, "lower", *module, *(["--record"] if records else [])])
    with open(base + ".low.ll", "w") as out:
        out.write(text.replace('nounwind "no-builtins"', f'nounwind {SANITIZED[sanitizer]} "no-builtins"') if sanitizer else text)
    return base + ".low.ll"


def compiled(source, base, version, level="2", sanitizer=None):
    """The object file of a lowered text. Roots are lowered before anything is optimised: from version 20 on by `opt`, and else by `llc` alone."""
    if sanitizer:
        return sanitized(source, base, version, sanitizer)
    opaque = ["-opaque-pointers"] if version == "14" else []
    if int(version) >= 20 and level != "0":
        done([f"opt-{version}", f"-passes=shadow-stack-gc-lowering,default<O{level}>", "-o", base + ".bc", source])
        source = base + ".bc"
    done([f"llc-{version}", *opaque, f"-O{level}", "-relocation-model=pic", "-filetype=obj", "-o", base + ".o", source])
    return base + ".o"


def sanitized(source, base, version, sanitizer):
    """The same, with a sanitizer. Before version 20 the code generator lowers the roots, after the sanitizer's pass: so nothing is optimised,
    and the sanitizer leaves the slots where they are."""
    how = ["-O1"]
    if int(version) >= 20:
        done([f"opt-{version}", "-passes=shadow-stack-gc-lowering", "-o", base + ".bc", source])
        source = base + ".bc"
    else:
        how = ["-O0", *(["-mllvm", "-asan-stack=0"] if sanitizer == "address" else []), *(["-mllvm", "-opaque-pointers"] if version == "14" else [])]
    done([f"clang-{version}", *how, "-g", "-Wno-override-module", f"-fsanitize={sanitizer}", "-c", "-o", base + ".o", source])
    return base + ".o"


def linked(objects, out, version, flags=(), sanitizer=None, runtime=RUNTIME):
    """A program of object files, dgmain.c, and the runtime of a folder."""
    more = ["-O1", "-g", f"-fsanitize={sanitizer}"] if sanitizer else ["-O2"]
    done([f"clang-{version}", *more, "-std=c11", "-w", "-pthread", *flags, f"-I{runtime}", f"-I{RECORDS}", "-o", out, *objects, os.path.join(runtime, "dgrt.c"), os.path.join(runtime, "dgmain.c")])
    return out


def program(dgc, module, base, version, sanitizer=None, runtime=RUNTIME):
    """A native program of a module, which is given as in `lowered`."""
    made = compiled(lowered(dgc, module, base, sanitizer=sanitizer), base, version, sanitizer=sanitizer)
    return linked([made], base, version, sanitizer=sanitizer, runtime=runtime)


def shapes_of(base):
    """The words that name the shapes of a module, base.ll. A module with typed pointers has none."""
    return ["--shapes", base + ".shapes"] if os.path.exists(base + ".shapes") else []


def module_of_c(dgc, path, base, version):
    """A module of a C program by the steps of examples/pipeline, its certificate, and its shapes where its pointers are opaque: base.ll, .cert,
    .shapes. Gives the first two paths."""
    done([f"clang-{version}", "-O1", "-Xclang", "-disable-llvm-passes", "-fno-discard-value-names", "-emit-llvm", "-S", "-o", base + ".1.ll", path])
    done([f"opt-{version}", "-S", "-passes=mem2reg,jump-threading,instnamer", "-o", base + ".2.ll", base + ".1.ll"])
    text = done([sys.executable, os.path.join(PIPELINE, "gcroot.py"), base + ".2.ll"])
    with open(base + ".ll", "w") as file:
        file.write(text)
    if re.search(r"\bptr\b", text):
        with open(base + ".shapes", "w") as file:
            file.write(done([sys.executable, os.path.join(PIPELINE, "shapes.py"), base + ".ll"]))
    with open(base + ".cert", "w") as file:
        file.write(done([dgc, "make", base + ".ll", *shapes_of(base), "--why"]))
    done([dgc, "check", base + ".ll", base + ".cert"])
    return [base + ".ll", base + ".cert"]


def trace(pools, starts, late=()):
    """The text of a trace without steps."""
    lines = [f"pool {name} {count}" for name, count in pools] + [f"start {line}" for line in starts] + [f"late {line}" for line in late]
    return "\n".join(["trace 2" if late else "trace 1", *lines, "steps", "end"]) + "\n"
