#!/bin/sh
# Makes the library for C without proving it, as a proved one is compiled: library.sh OUT
#
# OUT gets libjustfile.a, libjustfile.so, justfile.h, and justfile.py, which calls the shared library. Nothing is proved
# about what it builds, from the sources that the gate proves.
set -eu
[ $# = 1 ] || { echo 'usage: library.sh OUT' >&2; exit 2; }
top=$(cd "$(dirname "$0")/.." && pwd)
kit=$(dirname "$(dirname "$(readlink -f "$(command -v rt)")")")
mkdir -p "$1"
out=$(cd "$1" && pwd)
work=$(mktemp -d)
trap 'rm -rf "$work"' EXIT
trap 'exit 1' HUP INT TERM

python3 "$top/tools/header.py" >"$work/log" || { cat "$work/log" >&2; exit 1; }
module=${MODULE:-}
[ -n "$module" ] || { module=$work/module.ll; "$top/tools/module.sh" justfile_c "$module" --test; }
python3 "$top/tools/exported.py" "$module" "$work/exported.ll"
cd "$work"
# The flags that rattle gives clang for a proved program, but for code that any address suits.
"$kit/toolchain/bin/clang" --target=x86_64-unknown-linux-gnu --sysroot="$kit/toolchain" --no-default-config \
    -march=x86-64-v2 -O3 -fPIC -ffunction-sections -fdata-sections -no-canonical-prefixes -fintegrated-cc1 \
    -mllvm -no-trap-after-noreturn -mllvm -trap-unreachable -mllvm -no-x86-call-frame-opt \
    -mllvm -disable-machine-licm -mllvm -disable-postra-machine-licm -mllvm -sink-common-insts=false \
    -Xclang -fmerge-functions -mllvm -mergefunc-use-aliases -c -x ir exported.ll -o justfile.o
# What allocates, over malloc, is the kit's.
ar x "$kit/c/liblibc_c.a" heap.pic.o
rm -f "$out/libjustfile.a"
ar rcs "$out/libjustfile.a" justfile.o heap.pic.o
echo '{ global: justfile_format; local: *; };' >exports
cc -shared -Wl,--gc-sections,--version-script=exports,-soname,libjustfile.so -s -o "$out/libjustfile.so" justfile.o \
    heap.pic.o
cp "$top/library/justfile.h" "$top/library/justfile.py" "$out"
