#!/bin/sh
# Runs the formatter on texts that a hostile or a generated source can have, on a stack of 8 MB, and
# prints for each its status, time and peak memory, and those of a text of twice the length. Builds the
# program justfmt unless one is passed: hostile.sh [PROGRAM]. Needs rt and python3; its files are in
# bench/out.
set -eu
top=$(cd "$(dirname "$0")/.." && pwd)
out="$top/bench/out"
export PYTHONDONTWRITEBYTECODE=1

rm -rf "$out"
mkdir "$out"
if [ $# -eq 0 ]; then
    if ! (cd "$top/crates/justfmt" && rt run) >"$out/justfmt.log" 2>&1 </dev/null; then
        cat "$out/justfmt.log"
        exit 1
    fi
    program="$top/crates/justfmt/out/justfmt"
else
    program=$1
fi
ulimit -s 8192
python3 "$top/bench/hostile.py" "$program" "$out/hostile"
