#!/bin/sh
# Tries the formatter from C, Python, Node and a page in Chromium against justfmt, byte for byte: test_outside.sh
#
# Builds justfmt, the library and the page, unproved, unless JUSTFMT, LIBRARY and WEB name them. Tells what it skips for
# want of a program. Debian's packages: gcc, nodejs, chromium, and those that web.sh names.
set -eu
top=$(cd "$(dirname "$0")/.." && pwd)
work=$(mktemp -d)
trap 'rm -rf "$work"' EXIT
trap 'exit 1' HUP INT TERM

if [ -z "${LIBRARY:-}" ] || [ -z "${WEB:-}" ]; then
    "$top/tools/module.sh" justfile_c "$work/module.ll" --test
    export MODULE="$work/module.ll"
fi
[ -n "${JUSTFMT:-}" ] || { "$top/tools/build_unproved.sh" "$work" justfmt; JUSTFMT=$work/justfmt; }
[ -n "${LIBRARY:-}" ] || { "$top/tools/library.sh" "$work/library"; LIBRARY=$work/library; }
[ -n "${WEB:-}" ] || { "$top/tools/web.sh" "$work/web"; WEB=$work/web; }
mkdir "$work/tried"
python3 "$top/tools/outside.py" "$JUSTFMT" "$LIBRARY" "$WEB" "$work/tried"
