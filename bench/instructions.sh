#!/bin/sh
# Counts the instructions of lexing and of formatting justfiles of 100 KB, as valgrind counts them:
# instructions.sh TEXT_ROWS JUSTFMT. The programs are those that `rt run` builds in crates/text_rows and
# crates/justfmt. Prints a row for each justfile. Needs valgrind and python3; what it writes lies in
# bench/out.
set -eu
lexing=$1
formatting=$2
top=$(cd "$(dirname "$0")/.." && pwd)
out="$top/bench/out/instructions"
export PYTHONDONTWRITEBYTECODE=1

# The instructions of a program on a text.
count() {
    valgrind --tool=callgrind --callgrind-out-file=/dev/null "$1" <"$2" 2>&1 >/dev/null |
        sed -n 's/.*Collected : //p'
}

rm -rf "$out"
mkdir -p "$out"
python3 "$top/bench/justfiles.py" "$out" 100000
python3 "$top/bench/realistic.py" "$out/realistic.100000"
echo "| justfile | bytes | lexing | formatting | formatting, a byte |"
echo "|---|---:|---:|---:|---:|"
for text in "$out"/*; do
    bytes=$(wc -c <"$text")
    whole=$(count "$formatting" "$text")
    echo "| $(basename "$text" .100000) | $bytes | $(count "$lexing" "$text") | $whole | $((whole / bytes)) |"
done
