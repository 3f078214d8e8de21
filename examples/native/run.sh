#!/bin/sh
# From C to native programs: four threads beside the collector of runtime/, for each a record, and what `dgc conform` says of it.
# docs/NATIVE.md tells of the runtime.
#
#     DGC=path examples/native/run.sh [lists] [trees] [queues] [digits] [swap]
#
# Without arguments it takes all five. lists, trees, queues and digits are C, and go through examples/pipeline/run.sh. digits divides, and
# prints by a function outside of its module, that of show.c. swap is the module of examples/swap; without its barrier (plain.ll) it is
# refused, lowered all the same, and its record has to be refused too.
# LLVM is the version of clang, opt and llc: 22 where it is not set; 19, 16 and 14 do too. DGC is crates/dgc/out/dgc where it is not set.
# OUT names a folder to keep what is made. Ends with 0 where each step succeeds, and otherwise with 1.

here=$(cd "$(dirname "$0")" && pwd)
top=$(cd "$here/../.." && pwd)
dgc=${DGC:-$top/crates/dgc/out/dgc}
llvm=${LLVM:-22}
[ $# -gt 0 ] || set -- lists trees queues digits swap
forms=core
outside=

fail() {
    echo "run.sh: $1" >&2
    exit 1
}

for program in python3 "$dgc" "clang-$llvm" "opt-$llvm" "llc-$llvm"; do
    command -v "$program" >/dev/null 2>&1 || fail "$program is missing (Debian: apt-get install clang-$llvm llvm-$llvm; DGC names the program dgc)"
done
if [ -n "$OUT" ]; then
    out=$OUT
    mkdir -p "$out" || fail "the folder $out cannot be made"
else
    out=$(mktemp -d) || fail "no folder for what is made"
    trap 'rm -rf "$out"' EXIT
fi

# build PROGRAM WORD ..: a native program of a module, by the words after `dgc lower`; one that records where the first is --record.
# From LLVM 20 on roots are lowered before passes.
build() {
    program=$1
    shift
    "$dgc" lower "$@" --forms "$forms" >"$program.ll" 2>"$program.txt" || fail "$(cat "$program.ll" "$program.txt")"
    if [ "$llvm" -ge 20 ]; then
        "opt-$llvm" '-passes=shadow-stack-gc-lowering,default<O2>' -o "$program.bc" "$program.ll" || fail "opt failed"
    else
        cp "$program.ll" "$program.bc"
    fi
    opaque=
    [ "$llvm" -gt 14 ] || opaque=-opaque-pointers
    "llc-$llvm" $opaque -O2 -relocation-model=pic -filetype=obj -o "$program.o" "$program.bc" || fail "llc failed"
    flags=
    [ "$1" != --record ] || flags=-DRECORD
    "clang-$llvm" -std=c11 -O2 -pthread $flags -I"$top/runtime" -I"$top/examples/records" -o "$program" "$program.o" $outside "$top/runtime/dgrt.c" "$top/runtime/dgmain.c" || fail "the program is not linked"
}

# conforms MODULE TRACE RECORD [SHAPES]: what dgc says of a record.
conforms() {
    "$dgc" conform "$1" "$2" "$3" --forms "$forms" ${4:+--shapes "$4"} || true
}

of_c() {
    echo "$1: C to a module, its certificate and the check (examples/pipeline/run.sh)"
    OUT="$out/$1" DGC="$dgc" LLVM="$llvm" FORMS="$forms" sh "$top/examples/pipeline/run.sh" "$here/$1.c" >"$out/$1.txt" || fail "see $out/$1.txt"
    sed -n '/^5/,/^8/{s/^ \{4\}/    dgc check: /p}' "$out/$1.txt"
    build "$out/$1/native" "$out/$1/3.ll" "$out/$1/3.cert"
    echo "    four threads beside the collector:"
    "$out/$1/native" "$here/$1.trace" 2>"$out/$1/times.txt" >"$out/$1/ends.txt" || fail "the native program fails"
    sed 's/^/        /' "$out/$1/ends.txt"
    build "$out/$1/recorder" --record "$out/$1/3.ll" "$out/$1/3.cert"
    "$out/$1/recorder" "$here/$1.trace" "$out/$1/run.record" 2>/dev/null >"$out/$1/recorded.txt" || fail "the recorder fails"
    grep '^t ' "$out/$1/ends.txt" >"$out/$1/one.txt"
    grep '^t ' "$out/$1/recorded.txt" | cmp -s - "$out/$1/one.txt" || fail "the recorder's threads return something else"
    shapes=$out/$1/3.shapes
    [ -f "$shapes" ] || shapes=
    said=$(conforms "$out/$1/3.ll" "$here/$1.trace" "$out/$1/run.record" "$shapes")
    echo "    its record: $said"
    case $said in conforms*) ;; *) fail "the record does not conform" ;; esac
}

# record_swap NAME: records 100,000 steps of examples/swap/NAME.ll, whose threads have no end.
record_swap() {
    build "$out/swap/$1" --record "$top/examples/swap/$1.ll" --shapes "$top/examples/swap/swap.shapes"
    DG_LIMIT=100000 DG_STALL=20 "$out/swap/$1" "$here/swap.trace" "$out/swap/$1.record" 2>/dev/null || fail "the recorder of $1.ll fails"
    said=$(conforms "$top/examples/swap/$1.ll" "$here/swap.trace" "$out/swap/$1.record" "$top/examples/swap/swap.shapes")
    echo "    the record of $1.ll: $said"
}

of_swap() {
    mkdir -p "$out/swap"
    echo "swap: the modules of examples/swap"
    "$dgc" check "$top/examples/swap/barrier.ll" "$top/examples/swap/swap.cert" | sed 's/^/    dgc check barrier.ll: /'
    build "$out/swap/native" "$top/examples/swap/barrier.ll" "$top/examples/swap/swap.cert"
    timeout 1 "$out/swap/native" "$here/swap.trace" >/dev/null 2>&1
    [ $? -eq 124 ] || fail "the native program ends"
    echo "    four threads ran for a second"
    record_swap barrier
    case $said in conforms*) ;; *) fail "the record does not conform" ;; esac
    "$dgc" check "$top/examples/swap/plain.ll" "$top/examples/swap/swap.cert" | sed 's/^/    dgc check plain.ll: /'
    record_swap plain
    case $said in no*) ;; *) fail "the record of plain.ll conforms" ;; esac
}

# of_digits: a program that divides and prints, and what it has to print: 2 to the 64 and 2 to the 100, six times each.
of_digits() {
    forms=wide
    outside=$here/show.c
    of_c digits
    forms=core
    outside=
    for number in 18446744073709551616 1267650600228229401496703205376; do
        [ "$(grep -cx "$number" "$out/digits/ends.txt")" -eq 6 ] || fail "$number is not printed six times"
    done
}

for name in "$@"; do
    case $name in
    lists | trees | queues) of_c "$name" ;;
    digits) of_digits ;;
    swap) of_swap ;;
    *) fail "no program $name" ;;
    esac
done
[ -z "$OUT" ] || echo "What was made is in $out."
