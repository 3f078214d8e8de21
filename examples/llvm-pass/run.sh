#!/bin/sh
# Builds the plug-in for a version of LLVM by CMake, and tries it on modules that are accepted and that are refused.
#
#     LLVM=22 DGC=path examples/llvm-pass/run.sh
#
# LLVM is the version of llvm-config, opt and clang: 22 where it is not set; 19, 16 and 14 do too (Debian: llvm-22-dev, clang-22, cmake, g++).
# DGC is crates/dgc/out/dgc where it is not set. OUT names a folder to keep what is made. Ends with 0 where each line says ok, and otherwise
# with 1.

here=$(cd "$(dirname "$0")" && pwd)
top=$(cd "$here/../.." && pwd)
llvm=${LLVM:-22}
DGC=${DGC:-$top/crates/dgc/out/dgc}
export DGC
unset DGC_CERT DGC_SHAPES DGC_LAYOUTS DGC_FORMS DGC_LOWER DGC_KEEP
failed=0

fail() {
    echo "run.sh: $1" >&2
    exit 1
}

for program in "$DGC" cmake cc "llvm-config-$llvm" "clang-$llvm" "opt-$llvm" "llvm-objdump-$llvm"; do
    command -v "$program" >/dev/null 2>&1 || fail "$program is missing (Debian: apt-get install cmake g++ llvm-$llvm-dev clang-$llvm; DGC names the program dgc)"
done
if [ -n "$OUT" ]; then
    out=$OUT
    mkdir -p "$out" || fail "the folder $out cannot be made"
else
    out=$(mktemp -d) || fail "no folder for what is made"
    trap 'rm -rf "$out"' EXIT
fi

# wants NAME STATUS WORDS COMMAND ..: the command ends with 0, or with another status where STATUS is 1, and says the words.
wants() {
    name=$1
    status=$2
    words=$3
    shift 3
    "$@" >"$out/said" 2>&1 </dev/null
    ended=$?
    [ $ended -eq 0 ] || ended=1
    if [ $ended -eq "$status" ] && { [ -z "$words" ] || grep -qF -- "$words" "$out/said"; }; then
        echo "ok    $name"
    else
        echo "WRONG $name (status $ended)"
        sed 's/^/      /' "$out/said"
        failed=1
    fi
}

echo "LLVM $llvm: the plug-in is built"
{
    cmake -S "$here" -B "$out/build" -DLLVM_DIR="$("llvm-config-$llvm" --cmakedir)" &&
        cmake --build "$out/build"
} >"$out/build.txt" 2>&1 || fail "the plug-in is not built: $(tail -n 20 "$out/build.txt")"
plugin=$out/build/DgcPass.so
swap=$top/examples/swap
opaque= clang_opaque=
if [ "$llvm" -le 14 ]; then # LLVM 14 has typed pointers where it is not asked for others
    opaque=-opaque-pointers
    clang_opaque="-mllvm -opaque-pointers"
fi

# by_opt PASSES FILE
by_opt() { "opt-$llvm" $opaque -load-pass-plugin="$plugin" -passes="$1" -S -o "$out/opt.ll" "$2"; }
# in_text WORDS: opt's output has them
in_text() { grep -F -- "$1" "$out/opt.ll"; }

echo "opt: certificates, layouts, the lowered text"
DGC_CERT=$swap/swap.cert wants "accepted, certificate of a file" 0 "" by_opt dgc-check "$swap/barrier.ll"
DGC_CERT=$swap/swap.cert wants "refused" 1 "no @swap %put 2 K6" by_opt dgc-check "$swap/plain.ll"
DGC_SHAPES=$swap/swap.shapes wants "accepted, a certificate is made" 0 "" by_opt dgc-check "$swap/barrier.ll"
DGC_SHAPES=$swap/swap.shapes wants "refused, none is made" 1 "K6: %new is stored into @top without llvm.gcwrite" by_opt dgc-check "$swap/plain.ll"
DGC_CERT=$out/none wants "a file of a certificate that is not there" 1 "cannot be read" by_opt dgc-check "$swap/barrier.ll"
DGC_CERT=$swap/swap.shapes wants "a certificate that is not read" 1 "error C1" by_opt dgc-check "$swap/barrier.ll"
mkdir -p "$out/certs"
cp "$swap/swap.cert" "$out/certs/barrier.cert"
DGC_CERT=$out/certs wants "accepted, certificate of a folder" 0 "" by_opt dgc-check "$swap/barrier.ll"
wants "accepted, certificate and layouts of metadata" 0 "" by_opt dgc-check "$here/test/layouts.ll"
"opt-$llvm" $opaque -o "$out/layouts.bc" "$here/test/layouts.ll" || fail "opt writes no bitcode"
wants "the same, of bitcode" 0 "" by_opt dgc-check "$out/layouts.bc"
sed '/^!dgc.layouts/d' "$here/test/layouts.ll" >"$out/numbers.ll"
wants "refused without its layouts" 1 "no @pair %entry 1 K2" by_opt dgc-check "$out/numbers.ll"
sed 's/!"B"/!"D"/' "$here/test/layouts.ll" >"$out/numbers.ll"
wants "refused, a layout is no struct" 1 "no struct D" by_opt dgc-check "$out/numbers.ll"
wants "refused, no program dgc" 1 "dgc is not found" env DGC=none "opt-$llvm" $opaque -load-pass-plugin="$plugin" -passes=dgc-check -disable-output "$here/test/layouts.ll"
wants "lowered, and verified" 0 "" by_opt dgc-lower,verify "$here/test/layouts.ll"
wants "the lowered text calls the barrier" 0 "" in_text "@dg_write("
wants "its layouts are in the order of their names" 0 "[{ i64, i64 } { i64 1, i64 0 }, { i64, i64 } { i64 2, i64 2 }, { i64, i64 } { i64 2, i64 1 }]" in_text "@dg_layouts"
wants "a lowered module is not lowered again" 1 "error L7" by_opt dgc-lower,dgc-lower "$here/test/layouts.ll"
DGC_CERT=$swap/swap.cert wants "a refused module is not lowered" 1 "no @swap %put 2 K6" by_opt dgc-lower "$swap/plain.ll"
if [ "$llvm" -le 14 ]; then
    DGC_CERT=$swap/swap.cert wants "text with typed pointers, read as ptr and lowered" 0 "" by_opt dgc-lower,verify "$swap/typed/barrier.ll"
    opaque=
    DGC_CERT=$swap/typed/swap.cert wants "typed pointers, accepted" 0 "" by_opt dgc-check "$swap/typed/barrier.ll"
    DGC_CERT=$swap/typed/swap.cert wants "typed pointers, refused" 1 "no @swap %put 2 K6" by_opt dgc-check "$swap/typed/plain.ll"
    DGC_CERT=$swap/typed/swap.cert wants "typed pointers, not lowered" 1 "-opaque-pointers" by_opt dgc-lower "$swap/typed/barrier.ll"
fi

export DGC_SHAPES="$here/test/swap.shapes" DGC_LAYOUTS="$here/test/swap.layouts"
# by_clang WORDS OUTPUT: clang with these words
by_clang() { "clang-$llvm" $clang_opaque -fno-discard-value-names -fpass-plugin="$plugin" $1 -c -o "$2" "$here/test/swap.c"; }
# line_of OBJECT WORD: the line of the source at which the object file names a symbol
line_of() { "llvm-objdump-$llvm" -d -l -r "$1" | awk -v word="$2" '/swap[.]c:[0-9]+$/ { line = $NF } $0 ~ word { print line }'; }

echo "clang: accepted modules are lowered, linked with the runtime and run"
# runtime SOURCE OUT: the runtime and the program around swap(), for the interface of the folder SOURCE
runtime() {
    mkdir -p "$2" && cc -std=c11 -O2 -c -o "$2/dgrt.o" "$1/dgrt.c" && cc -std=c11 -O2 -I"$1" -c -o "$2/main.o" "$here/test/main.c" || fail "the runtime is not compiled"
}
runtime "$top/runtime" "$out/runtime"
mkdir -p "$out/source" && cp "$top/runtime/steps.h" "$top/runtime/claims.h" "$out/source" || fail "the runtime is not copied"
for file in dgrt.h dgrt.c; do
    sed 's/DG_INTERFACE 1$/DG_INTERFACE 2/; s/dg_interface_1/dg_interface_2/' "$top/runtime/$file" >"$out/source/$file"
done
runtime "$out/source" "$out/other"
for flags in -O0 -O1 -O2 "-O0 -g" "-O1 -g" "-O2 -g"; do
    object=$out/$(echo "swap$flags" | tr -d ' ').o
    wants "$flags, accepted" 0 "" by_clang "$flags" "$object"
    wants "$flags, its barrier is in the object file" 0 "dg_write" "llvm-objdump-$llvm" -d -r "$object"
    wants "$flags, linked" 0 "" cc -pthread -o "$object.run" "$object" "$out/runtime/main.o" "$out/runtime/dgrt.o"
    wants "$flags, four threads run" 0 "cells were freed" timeout 60 "$object.run"
    wants "$flags, another runtime is not linked" 1 "dg_interface_1" cc -pthread -o "$object.none" "$object" "$out/other/main.o" "$out/other/dgrt.o"
    case $flags in
    *-g)
        wants "$flags, the barrier has its line" 0 "swap.c:29" line_of "$object" dg_write
        wants "$flags, refused at its line" 1 "swap.c:27:9: error: dgc: " by_clang "$flags -DPLAIN" "$out/none.o"
        wants "$flags, a form that is not read at its line" 1 "swap.c:34:" by_clang "$flags -DFORM" "$out/none.o"
        ;;
    *) wants "$flags, refused in its function" 1 "swap.c:15:6: error: dgc: " by_clang "$flags -DPLAIN" "$out/none.o" ;;
    esac
    wants "$flags, a refused module has no object file" 1 "" test -e "$out/none.o"
done
DGC_LOWER=no wants "with DGC_LOWER=no it is checked alone" 0 "" by_clang -O2 "$out/checked.o"
wants "and then has no barrier" 1 "" sh -c "llvm-objdump-$llvm -d -r '$out/checked.o' | grep dg_write"

[ -z "$OUT" ] || echo "What was made is in $out."
exit $failed
