#!/bin/sh
# Refuses each allocation, read and write of built programs in turn: faults.sh [PROGRAM [CALLS]]
#
# PROGRAM is justfmt. It is run on a longer justfile and a short one, with --check on one and on its formatted text,
# on a text that isn't a justfile and on one that can't be printed. In each run one allocation is refused,
# alone or with all after it, or one read or write fails or moves one byte. Every run has to end as if
# nothing failed, or with status 3 and the one line for it, having written a beginning of the text, and
# nothing if an allocation is refused. Then each 61st allocation for a text that is formatted in parts is
# refused, most of them in a later part. Prints a row for each kind of run.
#
# CALLS is justfile_rows. Without arguments it makes each call of the library once and then again, and
# judges both results. In each run one allocation of one call is refused, alone or with all after it of
# that call. The call has to return that memory ran out, or its plain result, and all others their plain
# results. Then it formats a text in parts twice, where one allocation is refused: what isn't formatted
# for that reason has to be formatted the next time. Prints a row for each call.
#
# Ends with 1 if a run ended otherwise. Needs gcc.
set -u
top=$(cd "$(dirname "$0")/.." && pwd)
program=${1:-$top/crates/justfmt/out/justfmt}
calls=${2:-$top/crates/justfile_rows/out/justfile_rows}
work=$(mktemp -d) || exit 2
trap 'rm -rf "$work"' EXIT
for it in "$program" "$calls"; do
    [ -x "$it" ] || { echo "faults.sh: no program $it: rt run in its crate builds it" >&2; exit 2; }
done
gcc -O2 -Wall -shared -fPIC -o "$work/faults.so" "$top/bench/faults.c" || exit 2
status=0

# Runs the program on a text, with an argument or without one, and stores its output. The status is the
# program's, or 124 if it did not end.
run() {
    timeout 20 env "$@" >"$work/output" 2>"$work/errors" <"$work/input"
}

# Whether a file is a beginning of another.
is_beginning() {
    head -c "$(wc -c <"$1")" "$2" | cmp -s - "$1"
}

# Whether a run that ended with this status wrote what it does if nothing fails.
is_plain() {
    [ "$1" = "$plain" ] && cmp -s "$work/output" "$work/plain_output" && cmp -s "$work/errors" "$work/plain_errors"
}

# Whether a run that ended with this status reported that it failed, by the line in the file line.
is_failure() {
    [ "$1" = 3 ] && cmp -s "$work/errors" "$work/line" && is_beginning "$work/output" "$work/plain_output"
}

# Whether a run ended as one of these two, though standard error could not be written in full.
is_cut_off() {
    { [ "$1" = "$plain" ] && cmp -s "$work/output" "$work/plain_output" &&
        is_beginning "$work/errors" "$work/plain_errors"; } ||
        { [ "$1" = 3 ] && is_beginning "$work/output" "$work/plain_output" &&
            is_beginning "$work/errors" "$work/line"; }
}

# Fails each call of a name in turn, or each $step-th: NAME-OF-TEXT CALL HOW LINE, with the argument in $argument.
sweep() {
    number=0 runs=0 plainly=0 failed=0 cut_off=0 wrong=0
    printf '%s\n' "$4" >"$work/line"
    while :; do
        number=$((number + step))
        rm -f "$work/mark"
        run LD_PRELOAD="$work/faults.so" FAULT_CALL="$2" FAULT_AT="$number" FAULT_HOW="$3" FAULT_MARK="$work/mark" \
            "$program" $argument
        ended=$?
        [ -e "$work/mark" ] || break
        runs=$((runs + 1))
        if is_plain "$ended"; then
            plainly=$((plainly + 1))
        elif is_failure "$ended" && { [ "$2" != malloc ] || [ ! -s "$work/output" ]; }; then
            failed=$((failed + 1))
        elif [ "$2" = write ] && is_cut_off "$ended"; then
            cut_off=$((cut_off + 1))
        else
            wrong=$((wrong + 1))
            status=1
            echo "wrong: $1: $2 $number $3: status $ended" >&2
        fi
    done
    echo "| $1 | $2 | $3 | $runs | $plainly | $failed | $cut_off | $wrong |"
}

# The sweeps over the allocations for the text in the file input: NAME ARGUMENT, where the argument may be empty.
sweep_memory() {
    argument=$2
    run "$program" $argument
    plain=$?
    mv "$work/output" "$work/plain_output"
    mv "$work/errors" "$work/plain_errors"
    sweep "$1" malloc alone 'error: out of memory'
    sweep "$1" malloc onward 'error: out of memory'
}

# All sweeps over the text in the file input.
sweep_all() {
    sweep_memory "$1" "$2"
    sweep "$1" read alone 'error: reading failed'
    sweep "$1" read short 'error: reading failed'
    sweep "$1" write alone 'error: writing failed'
    sweep "$1" write onward 'error: writing failed'
    sweep "$1" write short 'error: writing failed'
}

# Refuses each allocation of a call of the library in turn: CALL HOW, where CALL is the line that is written
# before it.
sweep_call() {
    number=0 plainly=0 failed=0 wrong=0
    sed "s/^$1: plain, then plain$/$1: refused, then plain/" "$work/plain_output" >"$work/line"
    while :; do
        number=$((number + 1))
        rm -f "$work/mark"
        run LD_PRELOAD="$work/faults.so" FAULT_CALL=malloc FAULT_AT="$number" FAULT_HOW="$2" \
            FAULT_AFTER="$1" FAULT_MARK="$work/mark" "$calls"
        ended=$?
        [ -e "$work/mark" ] || break
        if [ "$ended" = 0 ] && cmp -s "$work/output" "$work/line" && [ ! -s "$work/errors" ]; then
            failed=$((failed + 1))
        elif is_plain "$ended"; then
            plainly=$((plainly + 1))
        else
            wrong=$((wrong + 1))
            status=1
            echo "wrong: $1: malloc $number $2: status $ended" >&2
        fi
    done
    echo "| $1 | $2 | $((number - 1)) | $failed | $plainly | $wrong |"
}

# The text of a file as a field of a row.
field() {
    printf '«'
    sed -e 's/\\/\\\\/g' -e 's/\t/\\t/g' -e 's/$/\\n/' "$1" | tr -d '\n'
    printf '»'
}

# What a run of two rows is, by its output: both hold, or memory ran out in the first, in the second or elsewhere.
outcome() {
    case "$1 $(sed -n -e 's/.*\.rows:\([12]\): fails$/\1/p' -e '/^  found: /p' -e '$p' "$work/output" | tr '\n' ' ')" in
        "0 2 rows hold, 0 fail, 0 can't be read ") echo plain ;;
        "1 1   found:     1 rows hold, 1 fail, 0 can't be read ") echo first ;;
        "1 2   found:     1 rows hold, 1 fail, 0 can't be read ") echo second ;;
        "1 ") grep -qx 'Error: Kind(OutOfMemory)' "$work/errors" && echo outside ;;
    esac
}

# Refuses allocations of a program that formats the text in the file input in parts, and then again, with two rows: from
# each $step-th on, awhile.
sweep_parts() {
    number=0 runs=0 plainly=0 first=0 second=0 outside=0 wrong=0
    for _ in first second; do
        printf 'in_parts 16384 %s %s\n' "$(field "$work/input")" "$(field "$work/plain_output")"
    done >"$work/twice.rows"
    while :; do
        number=$((number + step))
        rm -f "$work/mark"
        run LD_PRELOAD="$work/faults.so" FAULT_CALL=malloc FAULT_AT="$number" FAULT_HOW=awhile FAULT_MARK="$work/mark" \
            "$calls" "$work/twice.rows"
        ended=$?
        [ -e "$work/mark" ] || break
        runs=$((runs + 1))
        case $(outcome "$ended") in
            plain) plainly=$((plainly + 1)) ;;
            first) first=$((first + 1)) ;;
            second) second=$((second + 1)) ;;
            outside) outside=$((outside + 1)) ;;
            *)
                wrong=$((wrong + 1))
                status=1
                echo "wrong: in parts: malloc $number awhile: status $ended" >&2
                ;;
        esac
    done
    echo
    echo "| formatted in parts, twice | runs | both times | the second time | the first time | not tried | wrong |"
    echo "|---|---:|---:|---:|---:|---:|---:|"
    echo "| $1 | $runs | $plainly | $first | $second | $outside | $wrong |"
}

# All sweeps over calls of the library. Where nothing is refused, each call has to return its plain result.
sweep_calls() {
    : >"$work/input"
    run "$calls"
    plain=$?
    mv "$work/output" "$work/plain_output"
    mv "$work/errors" "$work/plain_errors"
    echo
    echo "| call | how | runs | memory ran out | as where nothing fails | wrong |"
    echo "|---|---|---:|---:|---:|---:|"
    for call in lexing parsing printing; do
        if [ "$plain" != 0 ] || ! grep -qx "$call: plain, then plain" "$work/plain_output"; then
            echo "wrong: $call, where nothing is refused" >&2
            exit 1
        fi
        sweep_call "$call" alone
        sweep_call "$call" onward
    done
}

# The longer justfile is read and written in several calls.
step=1
echo "| text | call | how | runs | as where nothing fails | status 3 and its line | standard error cut off | wrong |"
echo "|---|---|---|---:|---:|---:|---:|---:|"
for _ in 1 2 3 4 5 6; do cat "$top/examples/build.just"; done >"$work/input"
sweep_all "a longer justfile" ""
cat >"$work/input" <<'JUSTFILE'
# use PowerShell instead of sh:
set shell := ["powershell.exe", "-c"]

hello:
  Write-Host "Hello, world!"
foo:
  a

   b{{if x==y{'1'}else{if z{"2"}else{'3'}}}}c
[  env(bb, 'x')]
[env(aaa, 'y')]
foo:
[arg("n", max="10", long, min=x'2')]
foo +n:
foo: *(b *x / y)
x := f'a{{ f"b{{c}}" }}d'
JUSTFILE
sweep_all "a short justfile" ""
cp "$top/examples/build.just" "$work/input"
sweep_all "a justfile, --check" --check
cp "$top/examples/build.formatted.just" "$work/input"
sweep_all "a formatted one, --check" --check
printf 'a := b\nfoo:\n  {{}}\n' >"$work/input"
sweep_all "a rejected text" ""
printf 'foo:\n  a\r\r\n' >"$work/input"
sweep_all "an unprintable file" ""
for _ in $(seq 54); do cat "$top/examples/build.just"; done >"$work/input"
step=61
sweep_memory "a justfile of 150 KB" ""
sweep_parts "a justfile of 150 KB"

sweep_calls
exit $status
