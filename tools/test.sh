#!/bin/sh
# Runs all rows but the long ones, the other programs that have an expected output, and all tests, without proving
# anything: test.sh [CRATE..]
#
# Each is compiled with checks by `rt try`; its output and its status are compared with those that `rt ci` wants. Prints
# a line for each, and what differs. Ends with 1 if something differs, and with 2 if something has no answer and nothing
# differs: a run that takes more than 900 seconds of a processor, or two hours on the clock. JOBS=N runs N at a time, each
# of which takes up to 2 GB of memory; without it, one for every two processors. The row in scarce.rows isn't run: it
# takes all memory, which the checks need, too.
set -u
top=$(cd "$(dirname "$0")/.." && pwd)
work=$(mktemp -d) || exit 2
trap 'rm -rf "$work"' EXIT
trap 'exit 1' HUP INT TERM

# Tries the program of a crate, or its tests: one CRATE [--test]
cat >"$work/one" <<'EOF'
at=$(dirname "$0")/$1$2
cd "$1" || exit 1
words=$2 wanted=0 last=
if [ -z "$words" ]; then
    for file in data/*; do
        if [ -e "$file" ]; then words="$words --data ${file#data/}=$file"; fi
    done
    words="$words -- $(grep -v -e long_rows -e scarce args 2>/dev/null)"
    wanted=$(cat status 2>/dev/null || echo 0)
    cp stdout "$at.wanted"
    # The last line counts the rows, also those that are left out.
    if [ -e data/long_rows.rows ]; then last='$d'; fi
fi
# The system stops a process that takes more of a processor, by SIGXCPU.
ulimit -S -t 900
# shellcheck disable=SC2086
rt try --seconds 7200 $words <"$(ls stdin 2>/dev/null || echo /dev/null)" >"$at.out" 2>"$at.errors"
found=$?
sed -i "$last" "$at.out" "$at.wanted" 2>/dev/null
if [ "$found" = "$wanted" ] && { [ -n "$2" ] || cmp -s "$at.out" "$at.wanted"; }; then
    echo "$1${2:+ $2}: as it should"
    exit 0
fi
took=
grep -q SIGXCPU "$at.errors" && took='900 seconds of a processor'
[ "$found" != 6 ] || took='two hours on the clock: run it again when the machine does less'
if [ -n "$took" ]; then
    echo "$1${2:+ $2}: no answer within $took"
    : >"$(dirname "$0")/unanswered"
    exit 0
fi
echo "$1${2:+ $2}: status $found, and not $wanted"
if [ -n "$2" ]; then cat "$at.out"; else diff "$at.wanted" "$at.out"; fi | head -n 60
tail -n 5 "$at.errors"
exit 1
EOF

cd "$top/crates" || exit 2
for crate in ${*:-*}; do
    if [ -e "$crate/stdout" ]; then printf '%s\0\0' "$crate"; fi
    if grep -rqs '#\[test\]' "$crate/src"; then printf '%s\0--test\0' "$crate"; fi
done >"$work/all"
xargs -0 -r -n 2 -P "${JOBS:-$((($(nproc) + 1) / 2))}" sh "$work/one" <"$work/all" || exit 1
[ ! -e "$work/unanswered" ] || exit 2
