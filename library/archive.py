"""Writes libdgc.a from the objects of the library, of the kit's heap, which calls malloc, realloc and free, and of null.c."""
import os
import re
import subprocess
import tempfile

HERE = os.path.dirname(os.path.abspath(__file__))
INCLUDE = os.path.join(os.path.dirname(HERE), "include")


def calls():
    """The names of the calls in dgc.h."""
    with open(f"{INCLUDE}/dgc.h") as file:
        code = re.sub(r"/\*.*?\*/", "", file.read(), flags=re.S)
    return re.findall(r"\b(dgc_\w+)\(", code)


def write(kit, objects, out):
    """OUT/libdgc.a: one object, which defines the calls of dgc.h and no other name."""
    llvm_ar, lld = f"{kit}/toolchain/bin/llvm-ar", f"{kit}/toolchain/bin/ld.lld"
    os.makedirs(out, exist_ok=True)
    with tempfile.TemporaryDirectory() as room:
        subprocess.run([llvm_ar, "x", f"{kit}/c/liblibc_c.a"], cwd=room, check=True)
        heap = sorted(f"{room}/{name}" for name in os.listdir(room))
        renamed = [f"--redefine-sym={name}={name.replace('dgc_', 'dgc_proved_', 1)}" for name in calls()]
        kept = [f"--keep-global-symbol={name}" for name in calls()]
        subprocess.run([lld, "-r", *objects, *heap, "-o", f"{room}/proved.o"], check=True)
        subprocess.run(["objcopy", *renamed, f"{room}/proved.o"], check=True)
        subprocess.run([os.environ.get("CC", "cc"), "-std=c11", "-O2", "-fPIC", f"-I{INCLUDE}", "-c", f"{HERE}/null.c", "-o", f"{room}/null.o"], check=True)
        subprocess.run([lld, "-r", f"{room}/proved.o", f"{room}/null.o", "-o", f"{room}/all.o"], check=True)
        subprocess.run(["objcopy", *kept, f"{room}/all.o", f"{room}/dgc.o"], check=True)
        path = f"{out}/libdgc.a"
        if os.path.exists(path):
            os.remove(path)
        subprocess.run([llvm_ar, "rcs", path, f"{room}/dgc.o"], check=True)
    return path
