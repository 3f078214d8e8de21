#!/bin/sh
# Takes a C program through clang, opt, gcroot.py, dgc and llc, step by step. README.md says why these steps.
#
#     DGC=path examples/pipeline/run.sh [PROGRAM.c [REPLAY.trace [RUN.trace]]]
#
# Without arguments it takes trees.c, replay.trace and run.trace. Without a trace, replay and run are left out.
# LLVM is the version of clang, opt and llc: 14 where it is not set. Version 14 prints typed pointers, and later ones opaque pointers.
# LEVEL, such as -O2, takes what clang makes at that level in place of the text after mem2reg and jump-threading.
# FORMS, such as wide, says which forms dgc reads (docs/TEXT.md): core where it is not set. A program with strings needs wide. Its text is
# not lowered, so steps 8 and 9 are left out then.
# ABSTRACT, where it is set, puts abstract.py before gcroot.py, for programs with forms that dgc does not read; then nothing is compiled.
# DGC, CLANG, OPT, LLC and OBJDUMP name the programs. They are crates/dgc/out/dgc, clang-LLVM, opt-LLVM, llc-LLVM and llvm-objdump-LLVM
# where they are not set.
# OUT names a folder to keep what is made. Ends with 0 where each step succeeds, and otherwise with 1.

here=$(cd "$(dirname "$0")" && pwd)
top=$(cd "$here/../.." && pwd)
dgc=${DGC:-$top/crates/dgc/out/dgc}
forms=${FORMS:-core}
llvm=${LLVM:-14}
clang=${CLANG:-clang-$llvm}
opt=${OPT:-opt-$llvm}
llc=${LLC:-llc-$llvm}
objdump=${OBJDUMP:-llvm-objdump-$llvm}
if [ $# -eq 0 ]; then
    set -- "$here/trees.c" "$here/replay.trace" "$here/run.trace"
fi

fail() {
    echo "run.sh: $1" >&2
    exit 1
}

# A step on a text fails.
stop() {
    echo "run.sh: $1" >&2
    [ -n "$OUT" ] || echo "run.sh: OUT=folder keeps the texts" >&2
    exit 1
}

# A step of dgc fails.
refused() {
    echo "run.sh: dgc $1: $2" >&2
    stop "\`dgc explain CODE\` tells of a code such as K5"
}

# The lines of a file, moved to the right.
show() {
    sed 's/^/    /' "$1"
}

# needs PROGRAM HELP: fails where there is no such program.
needs() {
    command -v "$1" >/dev/null 2>&1 || fail "$1 is missing: $2"
}

# version_of PROGRAM: the first number of its version.
version_of() {
    "$1" --version 2>/dev/null | sed -n 's/.*version \([0-9]*\)\..*/\1/p' | head -n 1
}

needs python3 "install Python 3"
needs "$clang" "install clang $llvm (Debian: apt-get install clang-$llvm), or set LLVM or CLANG"
needs "$opt" "install LLVM $llvm (Debian: apt-get install llvm-$llvm), or set LLVM or OPT"
needs "$llc" "install LLVM $llvm (Debian: apt-get install llvm-$llvm), or set LLVM or LLC"
needs "$objdump" "install LLVM $llvm (Debian: apt-get install llvm-$llvm), or set LLVM or OBJDUMP"
needs "$dgc" "build it (README.md at the top, 'Build'), or set DGC"
[ "$(version_of "$clang")" = "$(version_of "$opt")" ] || fail "$clang and $opt are not of one version"
for file in "$@"; do
    [ -r "$file" ] || fail "$file cannot be read"
done

if [ -n "$OUT" ]; then
    out=$OUT
    mkdir -p "$out" || fail "the folder $out cannot be made"
else
    out=$(mktemp -d) || fail "no folder for what is made"
    trap 'rm -rf "$out"' EXIT
fi

echo "1. clang: $(basename "$1") to LLVM IR, without passes"
"$clang" -O1 -Xclang -disable-llvm-passes -fno-discard-value-names -emit-llvm -S -o "$out/1.ll" "$1" || fail "clang failed"

if [ -z "$LEVEL" ]; then
    echo "2. opt: mem2reg and jump-threading; instnamer gives names"
    "$opt" -S -passes=mem2reg,jump-threading,instnamer -o "$out/2.ll" "$out/1.ll" || fail "opt failed"
else
    echo "2. clang $LEVEL; instnamer gives names"
    "$clang" "$LEVEL" -fno-discard-value-names -emit-llvm -S -o "$out/2.level.ll" "$1" || fail "clang $LEVEL failed"
    "$opt" -S -passes=instnamer -o "$out/2.ll" "$out/2.level.ll" || fail "opt failed"
fi
if [ -n "$LEVEL" ] && grep -qw ptr "$out/2.ll"; then
    echo "   fields.py: byte offsets to fields"
    mv "$out/2.ll" "$out/2.bytes.ll"
    python3 "$here/fields.py" "$out/1.ll" "$out/2.bytes.ll" >"$out/2.ll" 2>"$out/3.txt" || stop "$(cat "$out/3.txt")"
    show "$out/3.txt"
fi

if [ -n "$ABSTRACT" ]; then
    echo "   abstract.py: any number in place of each that is not computed"
    mv "$out/2.ll" "$out/2.forms.ll"
    python3 "$here/abstract.py" "$out/2.forms.ll" >"$out/2.ll" 2>"$out/3.txt" || stop "$(cat "$out/3.txt")"
    show "$out/3.txt"
fi

echo "3. gcroot.py: claims, safepoints, roots, barriers"
python3 "$here/gcroot.py" "$out/2.ll" >"$out/3.ll" 2>"$out/3.txt" || stop "$(cat "$out/3.txt")"
show "$out/3.txt"

replay=$2
run=$3
set --
if grep -qw ptr "$out/3.ll"; then
    echo "   shapes.py: what the opaque pointers refer to"
    python3 "$here/shapes.py" "$out/3.ll" >"$out/3.shapes" 2>"$out/3.txt" || stop "$(cat "$out/3.txt")"
    set -- --shapes "$out/3.shapes"
fi

echo "4. dgc make: a certificate"
"$dgc" make "$out/3.ll" "$@" --forms "$forms" --why >"$out/3.cert" 2>"$out/4.txt" || refused make "$(cat "$out/3.cert" "$out/4.txt")"
echo "    $(wc -l <"$out/3.cert") lines"

echo "5. dgc check: is the module safe in every schedule?"
"$dgc" check "$out/3.ll" "$out/3.cert" --forms "$forms" >"$out/5.txt" 2>&1 || refused check "$(cat "$out/5.txt")"
show "$out/5.txt"

if [ -n "$replay" ]; then
    echo "6. dgc replay: the schedule of $(basename "$replay")"
    "$dgc" replay "$out/3.ll" "$replay" "$@" --forms "$forms" >"$out/6.txt" 2>&1 || refused replay "$(cat "$out/6.txt")"
    show "$out/6.txt"
fi

if [ -n "$run" ]; then
    echo "7. dgc run: real threads, as in $(basename "$run")"
    "$dgc" run "$out/3.ll" "$out/3.cert" "$run" --forms "$forms" --steps 4294967295 --turns 4294967295 >"$out/7.txt" 2>&1 || refused run "$(cat "$out/7.txt")"
    show "$out/7.txt"
fi

if [ -n "$ABSTRACT" ]; then
    [ -z "$OUT" ] || echo "What was made is in $out."
    exit 0
fi

echo "8. dgc lower: what LLVM compiles"
if ! "$dgc" lower "$out/3.ll" "$out/3.cert" --forms "$forms" >"$out/8.ll" 2>"$out/8.txt"; then
    grep -q '^error L7 ' "$out/8.txt" || refused lower "$(cat "$out/8.ll" "$out/8.txt")"
    echo "    nothing is lowered: dgc reads the data and the variable arguments of the text, and does not keep them"
    [ -z "$OUT" ] || echo "What was made is in $out."
    exit 0
fi
opaque=
[ "$(version_of "$opt")" -gt 14 ] || opaque=-opaque-pointers
"$opt" $opaque -passes=verify -disable-output "$out/8.ll" || fail "opt refuses what dgc lower prints"
echo "    $(wc -l <"$out/8.ll") lines, verified by opt"

# places_of NAME FILE: how many places in the code of an object file name a symbol.
places_of() {
    "$objdump" -d -r "$2" | grep -c "R_[A-Z0-9_]*[[:space:]]*$1\([-+]\|\$\)"
}

echo "9. llc: the object file calls the barrier"
"$llc" -O2 -filetype=obj -o "$out/9.plain.o" "$out/3.ll" || fail "llc failed on the text that was checked"
"$llc" $opaque -O2 -filetype=obj -o "$out/9.o" "$out/8.ll" || fail "llc failed on what dgc lower prints"
barriers=$(grep -c 'call void @llvm.gcwrite(' "$out/3.ll")
calls=$(places_of dg_write "$out/9.o")
echo "    the text that was checked has $barriers calls of llvm.gcwrite"
echo "    LLVM's own code of it calls a barrier $(places_of '[A-Za-z_.]*write[A-Za-z_.]*' "$out/9.plain.o") times"
echo "    the lowered text calls dg_write $(grep -c 'call void @dg_write(' "$out/8.ll") times, and its code has $calls such calls (llc joins equal ends of blocks)"
[ "$barriers" -eq "$(grep -c 'call void @dg_write(' "$out/8.ll")" ] || fail "a barrier is missing in what dgc lower prints"
[ "$barriers" -eq 0 ] || [ "$calls" -gt 0 ] || fail "the object file has no barrier"
if grep -q 'call void @llvm.gcroot(' "$out/3.ll"; then
    "$objdump" -t "$out/9.o" | grep -q '[.]tbss.*llvm_gc_root_chain' || fail "all threads share one root chain"
    echo "    each thread has a root chain of its own"
fi

[ -z "$OUT" ] || echo "What was made is in $out."
