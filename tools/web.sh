#!/bin/sh
# Makes the folder of the page, for any host of files, without proving it: web.sh OUT
#
# OUT gets the page, its worker, the loader, which serves Node, too, and justfile.wasm with its sum. The module is the
# formatter of justfile_c, compiled for 64-bit memory and lowered to 32 bits, which each browser has; heap.c; and the
# arithmetic of 128 bits of LLVM's own library for the compiler. Debian's packages libclang-rt-14-dev-wasm64 and
# binaryen have that library and the lowering; BUILTINS names another such library.
set -eu
[ $# = 1 ] || { echo 'usage: web.sh OUT' >&2; exit 2; }
top=$(cd "$(dirname "$0")/.." && pwd)
kit=$(dirname "$(dirname "$(readlink -f "$(command -v rt)")")")
builtins=${BUILTINS:-$(find /usr/lib/llvm-* -name libclang_rt.builtins-wasm64.a 2>/dev/null | sort | tail -n 1)}
[ -e "$builtins" ] || { echo 'web.sh: no libclang_rt.builtins-wasm64.a (apt-get install libclang-rt-14-dev-wasm64)' >&2; exit 2; }
command -v wasm-opt >/dev/null || { echo 'web.sh: no wasm-opt (apt-get install binaryen)' >&2; exit 2; }
mkdir -p "$1"
out=$(cd "$1" && pwd)
work=$(mktemp -d)
trap 'rm -rf "$work"' EXIT
trap 'exit 1' HUP INT TERM

python3 "$top/tools/header.py" >"$work/log" || { cat "$work/log" >&2; exit 1; }
module=${MODULE:-}
[ -n "$module" ] || { module=$work/module.ll; "$top/tools/module.sh" justfile_c "$module" --test; }
python3 "$top/tools/exported.py" "$module" "$work/exported.ll" wasm64
cd "$work"
clang="$kit/toolchain/bin/clang --target=wasm64-unknown-unknown --no-default-config -O3 -mbulk-memory"
$clang -ffunction-sections -fdata-sections -c -x ir exported.ll -o justfile.o
$clang -ffreestanding -fvisibility=hidden -c "$top/web/heap.c" -o heap.o
# The kit's linker links modules of WebAssembly under this name.
ln -s "$kit/toolchain/bin/ld.lld" wasm-ld
./wasm-ld -mwasm64 --no-entry --gc-sections --strip-all -z stack-size=8388608 --export=justfile_format \
    --export=justfile_room --export=justfile_give_back -o module.wasm justfile.o heap.o "$builtins"
wasm-opt --enable-memory64 --enable-bulk-memory --enable-sign-ext --enable-mutable-globals \
    --enable-nontrapping-float-to-int --memory64-lowering module.wasm -o "$out/justfile.wasm"
cp "$top/web/index.html" "$top/web/page.css" "$top/web/"*.mjs "$top/web/_headers" "$out"
(cd "$out" && sha256sum justfile.wasm | tee justfile.wasm.sha256)
