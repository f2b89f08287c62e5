#!/bin/sh
# Builds programs of this repository without proving them, as proved programs are compiled: build_unproved.sh OUT CRATE..
#
# It takes the module that clang gets of a proved program (module.sh), and calls clang as rattle does then. Nothing is
# proved about what it builds: it is what the gate builds if the sources are those that the gate has proved. OUT gets a
# program for each crate. Several are made of one module (together.py), so what they share is read and compiled once;
# each is linked from that with what starts it, and has what it reaches from there. LLVM inlines less there, since more
# functions have two callers: justfmt takes 5 % more instructions than one that is built alone.
set -eu
mkdir -p "$1"
out=$(cd "$1" && pwd)
shift
top=$(cd "$(dirname "$0")/.." && pwd)
kit=$(dirname "$(dirname "$(readlink -f "$(command -v rt)")")")
work=$(mktemp -d)
trap 'rm -rf "$work"' EXIT
trap 'exit 1' HUP INT TERM

# The flags that rattle gives clang for a proved program.
compile() {
    "$kit/toolchain/bin/clang" --target=x86_64-unknown-linux-gnu --sysroot="$kit/toolchain" --no-default-config \
        -march=x86-64 -O3 -fPIE -ffunction-sections -fdata-sections -no-canonical-prefixes -fintegrated-cc1 \
        -mllvm -no-trap-after-noreturn -mllvm -trap-unreachable -mllvm -no-x86-call-frame-opt \
        -mllvm -disable-machine-licm -mllvm -disable-postra-machine-licm -mllvm -sink-common-insts=false \
        -Xclang -fmerge-functions -mllvm -mergefunc-use-aliases -c -x ir "$1" -o "$2"
}

cd "$work"
if [ $# = 1 ]; then
    "$top/tools/module.sh" "$1" "$work/module.ll"
else
    python3 "$top/tools/together.py" sources "$work/copy" "$@"
    "$work/copy/tools/module.sh" programs "$work/module.ll"
    python3 "$top/tools/together.py" module "$work/module.ll" "$@"
fi
compile module.ll module.o
start=
for crate in "$@"; do
    if [ $# -gt 1 ]; then compile "$crate.ll" "$crate.o"; start=$crate.o; fi
    "$kit/bin/rattle-link" --target x86_64-unknown-linux-gnu --toolchain "$kit/toolchain" -o "$out/$crate" module.o $start \
        "$kit/c/libos_c.a" "$kit/c/liblibc_c.a" >"$work/log" 2>&1 || { cat "$work/log" >&2; exit 1; }
done
