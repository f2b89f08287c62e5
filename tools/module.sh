#!/bin/sh
# Writes the module of LLVM that clang gets of a proved program or of a crate's tests, without proving it:
# module.sh CRATE OUT.ll [--test]
#
# `rt try` hands clang a module with a check before each access and each sum. This takes that module, and makes it what
# clang gets of a proved program (as_proved.py).
set -eu
crate=$1
case $2 in /*) module=$2 ;; *) module=$PWD/$2 ;; esac
top=$(cd "$(dirname "$0")/.." && pwd)
kit=$(dirname "$(dirname "$(readlink -f "$(command -v rt)")")")
work=$(mktemp -d)
trap 'rm -rf "$work"' EXIT
trap 'exit 1' HUP INT TERM

# A kit of links, whose clang keeps the module and compiles nothing that has checks, and whose rattle checks nothing.
mkdir -p "$work/kit/bin" "$work/kit/toolchain/bin"
ln -s "$kit"/* "$work/kit/" 2>/dev/null || true
ln -s "$kit/bin"/* "$work/kit/bin/"
ln -s "$kit/toolchain"/* "$work/kit/toolchain/" 2>/dev/null || true
ln -s "$kit/toolchain/bin"/* "$work/kit/toolchain/bin/"
cd "$work/kit" && rm bin/rt bin/rtlib.py bin/rattle toolchain/bin/clang
cp "$kit/bin/rtlib.py" bin/
sed "s|^HERE = .*|HERE = \"$work/kit/bin\"|" "$kit/bin/rt" >bin/rt
cat >toolchain/bin/clang <<EOT
#!/bin/sh
if [ -f module.bc ]; then cp module.bc "$work/module.bc"; fi
case "\$*" in *sanitize*) exit 1 ;; esac
exec "$kit/toolchain/bin/clang" "\$@"
EOT
cat >bin/rattle <<EOT
#!/bin/sh
case "\$*" in *--help*) exec "$kit/bin/rattle" "\$@" ;; esac
exit 1
EOT
chmod +x bin/rt bin/rattle toolchain/bin/clang
(cd "$top/crates/$crate" && "$work/kit/bin/rt" try ${3:+"$3"} </dev/null >"$work/log" 2>&1) || true
[ -s "$work/module.bc" ] || { cat "$work/log" >&2; exit 1; }

"$kit/toolchain/bin/clang" --target=x86_64-unknown-linux-gnu --sysroot="$kit/toolchain" --no-default-config -S \
    -emit-llvm -O0 -Xclang -disable-llvm-passes -x ir "$work/module.bc" -o "$module"
python3 "$top/tools/as_proved.py" "$module" "$kit"
