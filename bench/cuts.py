#!/usr/bin/env python3
"""Formats texts in parts of a few bytes, and as a whole: cuts.py ROWS FORMATTER

ROWS is crates/justfile_rows, built, which formats in parts with the word `in_parts`, and FORMATTER
crates/justfmt, which does so only with texts of 128 KB or more. The texts are those of the rows of
crates/justfile_rows, alone, and each after another one; the parts have at least 1, 12 or 40 bytes. Prints
how many texts there are, how often they are formatted in parts, and how often the printed texts are the
same then. Ends with 1 if they aren't once.
"""
import glob
import os
import random
import re
import subprocess
import sys
import tempfile

sys.dont_write_bytecode = True
from survey import ROWS, escaped, texts_in, unescaped  # noqa: E402

# How many texts are formatted by one run of the rows.
AT_ONCE = 500
# Longer texts are formatted in parts by the formatter, too.
LONGEST = 100_000
# The least bytes of a part.
LEAST = (1, 12, 40)


def in_parts(rows, least, texts):
    """What is printed of each text that is formatted in parts of at least so many bytes, by its number.

    The rows expect nothing, so the program prints what it finds, unless that is nothing."""
    with tempfile.NamedTemporaryFile("w", suffix=".rows", encoding="utf-8", newline="") as file:
        file.writelines(f"in_parts {least} «{escaped(text)}»\n" for text in texts)
        file.flush()
        out = subprocess.run([rows, file.name], capture_output=True, check=False).stdout.decode()
    found = re.findall(r"^\S*:(\d+): fails\n  expected: .*\n  found:    «(.*)»$", out, re.M)
    counts = re.search(r"(\d+) rows hold, (\d+) fail", out)
    if not counts or int(counts[1]) + int(counts[2]) != len(texts) or int(counts[2]) != len(found):
        sys.exit(f"{rows}: not a line for each row:\n{out[-500:]}")
    return {int(line) - 1: unescaped(field) for line, field in found}


def as_a_whole(formatter, text):
    """What the formatter prints, or None if it refuses the text."""
    done = subprocess.run([formatter], input=text.encode(), capture_output=True, check=False)
    return done.stdout.decode() if done.returncode == 0 else None


def compare(rows, formatter, what, texts):
    """Formats some texts in both ways. Returns whether the printed texts are the same."""
    parted = same = 0
    wholes = [as_a_whole(formatter, text) for text in texts]
    for least in LEAST:
        for at in range(0, len(texts), AT_ONCE):
            for number, printed in in_parts(rows, least, texts[at:at + AT_ONCE]).items():
                parted += 1
                same += printed == wholes[at + number]
                if printed != wholes[at + number]:
                    print(f"apart: {least} {texts[at + number]!r}\n  in parts:   {printed!r}\n  as a whole: {wholes[at + number]!r}")
    formatted = sum(whole is not None for whole in wholes)
    print(f"{what}: {len(texts)} texts, {formatted} formatted; {parted} times in parts, {same} times the same")
    return same == parted


def main():
    rows, formatter = map(os.path.abspath, sys.argv[1:])
    texts = [text for text in texts_in(sorted(glob.glob(ROWS))) if len(text) <= LONGEST]
    lines = [text for text in texts if text.endswith("\n")]
    chance = random.Random(1)
    joined = [before + after for before, after in zip(lines, chance.sample(lines, len(lines)))]
    passed = [compare(rows, formatter, "texts of rows", texts), compare(rows, formatter, "joined ones", joined)]
    sys.exit(0 if all(passed) else 1)


if __name__ == "__main__":
    main()
