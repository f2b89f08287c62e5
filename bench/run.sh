#!/bin/sh
# Times the lexer and the formatter: builds the programs text_rows, which lexes, and justfmt, writes inputs of
# three sizes, and prints two tables, of lexing alone and of formatting compared with lexing. Each time
# is the least of nine runs. Needs rt and python3; its files are in bench/out and in the crates' folders
# out.
set -eu
top=$(cd "$(dirname "$0")/.." && pwd)
out="$top/bench/out"
sizes="100000 1000000 10000000"
export PYTHONDONTWRITEBYTECODE=1

# Proves and builds a program.
build() {
    if ! (cd "$top/crates/$1" && rt run) >"$out/$1.log" 2>&1 </dev/null; then
        cat "$out/$1.log"
        exit 1
    fi
}

rm -rf "$out"
mkdir "$out"
build text_rows
build justfmt
lexer="$top/crates/text_rows/out/text_rows"
formatter="$top/crates/justfmt/out/justfmt"

python3 "$top/bench/inputs.py" "$out/inputs" $sizes
python3 "$top/bench/justfiles.py" "$out/justfiles" $sizes
echo "Lexing"
echo
python3 "$top/bench/table.py" "$lexer" "$out/inputs"
echo
echo "Formatting"
echo
python3 "$top/bench/lexing_ratio.py" "$lexer" "$formatter" "$out/justfiles"
