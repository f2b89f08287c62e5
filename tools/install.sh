#!/bin/sh
# Builds programs from this checkout without proving them, and installs them in PREFIX/bin: install.sh [--server] [PREFIX]
#
# PREFIX is ~/.local if none is given. The programs are justfmt and justfiles, and with --server justfile_server, too.
# They are compiled as proved programs are (build_unproved.sh), from the sources that `rt ci` proves: from a copy in
# which commit.rt has the commit, which --version writes. What they share is read and compiled once, and that takes
# nearly all of the time: half of it the kit, for the code of std and of the crates, half LLVM.
set -eu
programs='justfmt justfiles'
if [ "${1-}" = --server ]; then
    programs="$programs justfile_server"
    shift
fi
case ${1-} in -*) echo "install.sh: unexpected argument: $1: install.sh [--server] [PREFIX]" >&2; exit 2 ;; esac
prefix=${1:-$HOME/.local}
top=$(cd "$(dirname "$0")/.." && pwd)
command -v rt >/dev/null || { echo 'install.sh: rt is not on PATH: add bin of the kit to it' >&2; exit 2; }
command -v python3 >/dev/null || { echo 'install.sh: python3 is not on PATH' >&2; exit 2; }
work=$(mktemp -d)
trap 'rm -rf "$work"' EXIT
trap 'exit 1' HUP INT TERM

commit=$(git -C "$top" log -1 --format=%h 2>/dev/null || echo unknown)
[ -z "$(git -C "$top" status --porcelain 2>/dev/null)" ] || commit="$commit, changed since"
mkdir "$work/copy"
tar -C "$top" --exclude=out -cf - crates crates.txt tools | tar -C "$work/copy" -xf -
sed -i "s/^pub const COMMIT: .*/pub const COMMIT: \&str = \"$commit\";/" "$work"/copy/crates/*/src/commit.rt

echo "Compiling $programs of commit $commit with $(rt version), and proving nothing again."
echo "That takes two to four minutes of a processor, and 1 GB of memory. They go to $prefix/bin."
"$work/copy/tools/build_unproved.sh" "$work/built" $programs

[ "$(printf 'a:=b' | "$work/built/justfmt")" = 'a := b' ] || { echo 'install.sh: justfmt does not format' >&2; exit 1; }
for program in $programs; do
    [ "$program" = justfmt ] || case $("$work/built/$program" --version </dev/null) in
    "$program, commit $commit, "*) ;;
    *) echo "install.sh: $program does not tell its commit" >&2; exit 1 ;;
    esac
    mkdir -p "$prefix/bin"
    install -m 755 "$work/built/$program" "$prefix/bin/$program"
    echo "installed $prefix/bin/$program"
done
times >"$work/times"
awk 'NR == 2 { gsub(/[ms]/, " "); printf "It took %d seconds of a processor.\n", 60 * $1 + $2 + 60 * $3 + $4 }' "$work/times"
echo 'To prove what was installed: rt ci, or rt run in the folder of each, as crates/justfmt (README.md, "Check it").'
case ":$PATH:" in
*":$prefix/bin:"*) ;;
*) printf '%s/bin is not on your PATH. To put it there:\n    export PATH="%s/bin:$PATH"\n' "$prefix" "$prefix" ;;
esac
