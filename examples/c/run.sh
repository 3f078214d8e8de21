#!/bin/sh
# Builds callers of the library in C, C++ and Rust, and compares what they print with what they have to.
#
#     examples/c/run.sh
#
# The library is installed into a folder of its own from crates/dgc_c/out, where library/proved.py leaves it. ARCHIVE names another libdgc.a, as that of
# library/unproved.py. PREFIX names a folder into which it is installed already. OUT names a folder to keep what is made. CC, CXX and RUSTC
# are the compilers. Needed are a C and a C++ compiler, pkg-config and python3 (Debian: gcc g++ pkg-config python3). What CMake and rustc build
# is left out, and said so, where they are missing (Debian: cmake rustc). Ends with 0 where each line says ok or that something is left out,
# and otherwise with 1.

here=$(cd "$(dirname "$0")" && pwd)
top=$(cd "$here/../.." && pwd)
swap=$top/examples/swap
CC=${CC:-cc}
CXX=${CXX:-c++}
RUSTC=${RUSTC:-rustc}
failed=0

fail() {
    echo "run.sh: $1" >&2
    exit 1
}

has() {
    command -v "$1" >/dev/null 2>&1
}

for program in "$CC" "$CXX" pkg-config python3; do
    has "$program" || fail "$program is missing (Debian: apt-get install gcc g++ pkg-config python3)"
done
if [ -n "$OUT" ]; then
    out=$OUT
    mkdir -p "$out" || fail "the folder $out cannot be made"
else
    out=$(mktemp -d) || fail "no folder for what is made"
    trap 'rm -rf "$out"' EXIT
fi
prefix=$PREFIX
if [ -z "$prefix" ]; then
    prefix=$out/prefix
    python3 "$top/library/install.py" "$prefix" ${ARCHIVE:+--archive "$ARCHIVE"} || fail "the library is not installed"
fi

# wants NAME STATUS TEXT COMMAND ..: the command ends with this status and prints this text.
wants() {
    name=$1
    status=$2
    text=$3
    shift 3
    said=$("$@" 2>&1 </dev/null)
    ended=$?
    if [ $ended -eq "$status" ] && [ "$said" = "$text" ]; then
        echo "ok    $name"
    else
        echo "WRONG $name (status $ended)"
        printf '%s\n' "$said" | sed 's/^/      /'
        failed=1
    fi
}

# wants_all HOW CHECK EMIT: what the callers in C and C++ print.
wants_all() {
    wants "$1: check, accepted" 0 "yes 1" "$2" "$swap/barrier.ll" "$swap/swap.cert"
    wants "$1: check, refused" 1 "$refused" "$2" "$swap/plain.ll" "$swap/swap.cert"
    wants "$1: check, not read" 2 "$unread" "$2" "$out/cut.ll" "$swap/swap.cert"
    wants "$1: emit, two edits" 0 "$edited" "$3" "$swap/plain.ll" "$swap/swap.cert" @none "$out/swap.code" @swap "$out/swap.code"
    wants "$1: emit, not read" 2 "error L2 3:7" "$3" "$out/cut.ll" "$swap/swap.cert"
}

head -n 2 "$swap/plain.ll" >"$out/cut.ll"
printf 'define' >>"$out/cut.ll"
sed -n '/^define/,$p' "$swap/barrier.ll" >"$out/swap.code"
refused='no @swap %put 2 K6
code K6, function 0, block 2, instruction 2, line 20, column 3
module:20:3: K6: %new is stored into @top without llvm.gcwrite
   20 |   store ptr %new, ptr @top
      |                       ^~~~ a global is never fresh
  known: %new ref Node nonnull fresh
  mend:  in place of the store: call void @llvm.gcwrite(ptr %new, ptr null, ptr @top)'
unread="error L2 3:7
code L2, line 3, column 7
module:3:7: L2: the text ends inside a function
    3 | define
      |       ^
  mend:  something is not closed: a function ends with \`}\`, a block with br, switch, ret or unreachable"
edited='no @swap %put 2 K6
1 refused L5
@none: 0 functions checked again
1 rechecked 1 yes 1
@swap: 1 functions checked again'
made='certificate: 11 lines
yes 1'

flags="-std=c11 -O2 -Wall -Wextra -Werror"
PKG_CONFIG_PATH=$prefix/lib/pkgconfig
export PKG_CONFIG_PATH
dgc=$(pkg-config --cflags --libs dgc) || fail "pkg-config finds no dgc in $prefix"
$CC $flags "$here/check.c" $dgc -o "$out/check" || fail "check.c is not compiled"
$CXX -std=c++14 -O2 -Wall -Wextra -Werror "$here/emit.cpp" $dgc -o "$out/emit" || fail "emit.cpp is not compiled"
wants_all pkg-config "$out/check" "$out/emit"

if has cmake; then
    {
        cmake -S "$here" -B "$out/build" -DCMAKE_PREFIX_PATH="$prefix" -DCMAKE_C_COMPILER="$CC" -DCMAKE_CXX_COMPILER="$CXX" &&
            cmake --build "$out/build"
    } >"$out/build.txt" 2>&1 || fail "CMake does not build the callers: $(tail -n 20 "$out/build.txt")"
    wants_all CMake "$out/build/check" "$out/build/emit"
else
    echo "left out: CMake (Debian: apt-get install cmake)"
fi

if has "$RUSTC"; then
    $RUSTC --edition 2021 -O -D warnings -L "$prefix/lib" "$here/make.rs" -o "$out/make" || fail "make.rs is not compiled"
    wants "rustc: make, accepted" 0 "$made" "$out/make" "$swap/barrier.ll" "$swap/swap.shapes"
    wants "rustc: make, no answer" 1 "no answer" "$out/make" "$swap/plain.ll" "$swap/swap.shapes"
    wants "rustc: make, no shapes" 2 "error Y5" "$out/make" "$swap/barrier.ll"
else
    echo "left out: Rust (Debian: apt-get install rustc)"
fi

exit $failed
