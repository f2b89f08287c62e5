#!/usr/bin/env python3
"""Prints how large crates are and how long the gate takes for them, as docs/SIZES.md has it: sizes.py [CRATE..]

A row for each crate, or each that is named: its functions; its lines of code with contracts (+ lines of tests), of
definitions (`specs/`) and of proofs, none of them blank, without rows of data; the seconds of the processor that
`rt ci` takes for its proof (+ its tests) and for its wrong bodies. Then the longest chain of crates. Times are those of
docs/times.txt, which measure.py writes while it runs the gate: compare only times of one load, since beside seven
others a check counts up to twice as many seconds.
"""
import re
import sys
import textwrap
from pathlib import Path

TOP = Path(__file__).resolve().parent.parent
CRATES = TOP / "crates"
TIMES = TOP / "docs/times.txt"
PAGE = TOP / "docs/SIZES.md"
PARTS = ("proof", "tests", "wrong bodies")
HEAD = ("crate", "functions", "code", "definitions", "proofs", "s: proof", "s: wrong bodies")
LISTED = [line.partition(":") for line in (TOP / "crates.txt").read_text().splitlines() if ":" in line]
# A static library has a word behind its name.
BELOW = {name.split()[0]: rest.split() for name, _, rest in LISTED}
NAMES = list(BELOW)


def lines(files):
    """How many lines of some files aren't blank."""
    return sum(1 for path in files for line in path.read_text().split("\n") if line.strip())


def sizes(crate):
    """A crate's functions, and its lines of code, of tests, of definitions and of proofs."""
    tests = [path for path in CRATES.glob(f"{crate}/src/**/*.rt") if "tests" in (*path.parts, path.stem)]
    code = [path for path in CRATES.glob(f"{crate}/src/**/*.rt") if path not in tests]
    function = re.compile(r'^\s*(?:pub(?:\([^)]*\))? )?(?:const |extern "C" )?fn \w', re.M)
    functions = sum(len(function.findall(path.read_text())) for path in code)
    specs, proofs = (CRATES.glob(f"{crate}/{folder}/**/*.antt") for folder in ("specs", "proofs"))
    return [functions, *map(lines, (code, tests, specs, proofs))]


def table(head, rows):
    """A table of Markdown whose columns but the first are numbers."""
    made = ["| " + " | ".join(head) + " |", "|---" + "|---:" * (len(head) - 1) + "|"]
    return "\n".join([*made, *("| " + " | ".join(row) + " |" for row in rows)]) + "\n"


def measured():
    """How the times were measured, and the seconds on the clock and of the processor by crate and part."""
    how, times = [], {}
    for line in TIMES.read_text().splitlines():
        if line.startswith("#"):
            how.append(line.lstrip("# "))
        elif line.strip():
            crate, part, clock, cpu = line.split("\t")
            times[crate, part] = (None if clock == "-" else float(clock), float(cpu))
    return how[0], times


def size_rows(crates, times):
    """A row for each of some crates, and with several one for all of them: its cells."""
    each = {crate: sizes(crate) for crate in crates}
    if len(each) > 1:
        each["all"] = [sum(column) for column in zip(*each.values())]
    for crate, (functions, code, tests, specs, proofs) in each.items():
        proof, test, bodies = (seconds_of(crate, crates, part, times) for part in PARTS)
        sums = f"{code}{f' + {tests}' * (tests > 0)}", f"{proof}{f' + {test}' * bool(test)}"
        yield [crate, str(functions), sums[0], str(specs), str(proofs), sums[1], bodies]


def seconds_of(crate, crates, part, times):
    """The processor's seconds of a part of a crate, or of all these crates, or nothing if it wasn't measured."""
    named = crates if crate == "all" else [crate]
    of = [cpu for (name, it), (_, cpu) in times.items() if it == part and name in named]
    return f"{sum(of):.0f}" if of else ""


def from_nothing(crate, times):
    """The processor's seconds that a crate takes with those below it; all crates with their tests and wrong bodies."""
    if crate is None:
        return sum(cpu for (_, part), (_, cpu) in times.items() if part in PARTS)
    found, left = set(), [crate]
    while left:
        it = left.pop()
        if it not in found:
            found.add(it)
            left.extend(below for below in BELOW[it] if below in BELOW)
    return sum(times[it, "proof"][1] for it in found if (it, "proof") in times)


def longest_chain(times):
    """The processor's seconds of the longest chain of crates, the crates, and what of the last one ends the chain.
    A proof and tests wait for the proofs of the crates below, and wrong bodies for both."""
    proved, ends = {}, []
    for crate in NAMES:
        proof, tests, edits = (times.get((crate, part), (None, 0))[1] for part in PARTS)
        before, chain = max((proved[it] for it in BELOW[crate] if it in proved), default=(0, []))
        proved[crate] = (before + proof, [*chain, crate])
        ends += [(*proved[crate], ""), (before + tests, [*chain, crate], ", by its tests")]
        ends.append((before + max(proof, tests) + edits, [*chain, crate], ", with its wrong bodies" * (edits > 0)))
    return max(ends, key=lambda end: end[0])


def chain_text(times):
    seconds, chain, end = longest_chain(times)
    text = f"The longest chain of crates takes {seconds / 60:.0f} minutes of a processor: {', '.join(chain)}{end}."
    return textwrap.fill(text, 115, break_on_hyphens=False)


def page():
    """docs/SIZES.md, all of it: what this file's own text says of the columns, the table, and the longest chain."""
    of_columns = __doc__.partition("\n\n")[2].replace("\n", " ").strip()
    how, times = measured()
    parts = ["# Sizes and times", textwrap.fill(of_columns, 115), table(HEAD, size_rows(NAMES, times)).rstrip()]
    parts += [textwrap.fill(f"Times: {how}.", 115), chain_text(times)]
    return "\n\n".join(parts) + "\n"


def check(write):
    """Whether docs/SIZES.md is as the crates and docs/times.txt have it; with `write` it is written."""
    if PAGE.is_file() and PAGE.read_text() == page():
        return
    if write:
        PAGE.write_text(page())
    else:
        yield "docs/SIZES.md: it isn't what sizes.py makes of the crates and docs/times.txt: --write writes it"


def main():
    crates = sys.argv[1:] or NAMES
    if unknown := [it for it in crates if it not in BELOW]:
        print(f"sizes.py: crates.txt has no crate {unknown[0]}", file=sys.stderr)
        return 2
    how, times = measured()
    print(table(HEAD, size_rows(crates, times)))
    print(textwrap.fill(f"Times: {how}.", 115))
    if crates == NAMES:
        print(chain_text(times))
    return 0


if __name__ == "__main__":
    sys.exit(main())
