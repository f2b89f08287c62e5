#!/usr/bin/env python3
"""Surveys texts that are broken: survey.py PROGRAM RECIPES [COUNT]

PROGRAM is crates/justfile_rows, built, which surveys the texts of rows with the word `surveys`, and RECIPES
crates/recipes, which tells whether a text is a justfile.
Breaks COUNT texts (2,000 unless given) of the rows of
crates/justfile_rows that are justfiles with at least two named items: by a byte that is taken out or
put in place of another one, or by a bracket or a quote that is put in. Prints in how many of those that
are refused the survey has an error, and in how many it has all named items but the one with the broken
byte. Then surveys a text with four errors, one with an open bracket on each of 10,000 lines, and long
texts that are refused at the end, at twice the length, too. Ends with 1 if something isn't as it should
be.
"""
import glob
import os
import random
import re
import resource
import subprocess
import sys
import tempfile

TOP = os.path.dirname(os.path.dirname(os.path.abspath(__file__)))
ROWS = os.path.join(TOP, "crates", "justfile_rows", "data", "*.rows")

# The least share of texts that keep all other named items, in percent.
LEAST_KEPT = 96

# What is put in, or in place of a byte.
PUT_IN = "()[]{}'\"`"
INSTEAD = "ab _:=,(){}[]'\"`@#&|+/\\$*?!.\n\t0"

FOUR_ERRORS = """set indentation := '  '

# Where it goes
target := "out"
flags := if os() == 'linux' { '-a' } else { '-b' + level }

open := ( target

# Makes all of it
[group('daily')]
make mode='fast': tidy (check mode)
    cc {{ flags }} -o {{target}} {{mode}}

[private]
[private]
tidy:
  rm -rf {{ target }}

check kind *args: tidy
  run {{ kind }} 'x {{ args
  echo

alias m := make

send host: make
  scp {{ target }} {{host}}:{{ kind }}

endless := "abc

last:
  echo {{ flags }}
"""

# The items without an error, and the lines of the errors, from 0. With the parenthesis open, a body is
# read as tokens of an expression, which ends at its `-`.
SEVEN_ITEMS = ["indentation", "target", "flags", "make", "m", "send", "last"]
FOUR_LINES = {11, 14, 19, 27}

ITEM = re.compile(r"(\w+) (.*) (\d+)-(\d+) name (\d+)-(\d+)(?: body (\d+)-(\d+))?( private)?")
ERROR = re.compile(r"error (\d+)-(\d+) (\d+):(\d+) (.*)", re.S)


def escaped(text):
    """The text as a field of a row has it."""
    def one(found):
        known = {"\n": "\\n", "\r": "\\r", "\t": "\\t", "\\": "\\\\"}
        return known.get(found[0]) or f"\\u{{{ord(found[0]):x}}}"
    return re.sub(r"[\x00-\x1f\x7f\\«»]", one, text)


def surveyed(program, text):
    """The items of a survey, as (start, end, kind, name), and its errors, as (offset, line).

    The row expects nothing, so the program prints what it finds, unless that is nothing."""
    with tempfile.NamedTemporaryFile("w", suffix=".rows", encoding="utf-8", newline="") as rows:
        rows.write(f"surveys «{escaped(text)}»\n")
        rows.flush()
        out = subprocess.run([program, rows.name], capture_output=True).stdout.decode()
    found = re.search(r"^  found:    (.*)$", out, re.M)
    items, errors = [], []
    for quoted in re.findall(r"«([^»]*)»", found[1] if found else ""):
        field = unescaped(quoted)
        item, error = ITEM.fullmatch(field), ERROR.fullmatch(field)
        if error:
            errors.append((int(error[1]), int(error[3])))
        elif item:
            items.append((int(item[3]), int(item[4]), item[1], item[2]))
    return items, errors


def unescaped(field):
    """The text that a field between « and » stands for, or None if it repeats a part."""
    if re.search(r"\\\d+‹", field):
        return None
    field = re.sub(r"\\\n\s*", "", field)
    known = {"n": "\n", "r": "\r", "t": "\t", "\\": "\\"}
    return re.sub(r"\\(?:u\{([0-9a-f]+)\}|(.))", lambda m: chr(int(m[1], 16)) if m[1] else known.get(m[2], m[0]), field)


def texts_in(paths):
    """The texts of files of rows, each once, without those that repeat a part."""
    found = {}
    for path in paths:
        with open(path, encoding="utf-8", newline="") as rows:
            found.update((unescaped(field), True) for field in re.findall(r"«([^»]*)»", rows.read()))
    return [text for text in found if text is not None]


def texts_of_rows():
    """The texts of the rows that have a line feed, each once."""
    paths = [path for path in sorted(glob.glob(ROWS)) if "long" not in path and "wrong" not in path]
    return [text for text in texts_in(paths) if "\n" in text and len(text) < 2000 and text.isascii()]


def broken(text, chance):
    """The text with a change at one place, and that place."""
    at = chance.randrange(len(text))
    way = chance.randrange(3)
    if way == 0:
        return text[:at] + text[at + 1:], at
    if way == 1:
        return text[:at] + chance.choice(INSTEAD) + text[at + 1:], at
    return text[:at] + chance.choice(PUT_IN) + text[at:], at


def others_kept(before, after, at):
    """How many of the named items, but for those with the place, are there afterwards, and how many there are."""
    left = [item[2:] for item in after]
    kept = total = 0
    for start, end, kind, name in before:
        if not start <= at < end:
            total += 1
            if (kind, name) in left:
                left.remove((kind, name))
                kept += 1
    return kept, total


def break_rows(program, recipes, count):
    """Breaks texts of the rows. Returns whether enough is kept."""
    chance = random.Random(1)
    accepted = []
    for text in texts_of_rows():
        items, errors = surveyed(program, text)
        if not errors and len(items) >= 2:
            accepted.append((text, items))
    tried = with_error = whole = kept = total = errors_found = 0
    while tried < count:
        text, items = chance.choice(accepted)
        changed, at = broken(text, chance)
        if is_justfile(recipes, changed):
            continue
        after, errors = surveyed(program, changed)
        tried += 1
        with_error += bool(errors)
        errors_found += len(errors)
        k, t = others_kept(items, after, at)
        whole += k == t
        kept += k
        total += t
    print(f"{len(accepted)} texts, {tried} broken ones: {with_error} with an error, {errors_found / tried:.2f} errors a text;")
    print(f"{whole} ({100 * whole / tried:.1f} %) keep all other named items, {kept} of {total} items")
    return with_error == tried and 100 * whole >= LEAST_KEPT * tried


def is_justfile(recipes, text):
    """Whether the text is a justfile: whether its recipes can be listed."""
    return subprocess.run([recipes], input=text.encode(), capture_output=True).returncode == 0


def four_errors(program):
    """Surveys the text with four errors. Returns whether these and the other items are found."""
    items, errors = surveyed(program, FOUR_ERRORS)
    names = [item[3] for item in items]
    print(f"four errors: on lines {[line for _, line in errors]}, items {' '.join(names)}")
    return {line for _, line in errors} == FOUR_LINES and len(errors) == 4 and all(name in names for name in SEVEN_ITEMS)


def seconds(program, text):
    """The seconds of a processor that a survey takes, the least of three, and its errors and items."""
    least = None
    for _ in range(3):
        before = resource.getrusage(resource.RUSAGE_CHILDREN)
        items, errors = surveyed(program, text)
        after = resource.getrusage(resource.RUSAGE_CHILDREN)
        spent = after.ru_utime + after.ru_stime - before.ru_utime - before.ru_stime
        least = spent if least is None else min(least, spent)
    return least, len(errors), len(items)


def long_texts(program):
    """Surveys long texts. Returns whether none takes more than three times as long at twice the length."""
    recipe = "# doc\nbuild a='b': c\n    echo {{a}} 'd' e\n\n"
    kinds = {
        "open brackets": lambda n: "a := (\n" * n,
        "open lists": lambda n: "a := [b,\n" * n,
        "open quotes": lambda n: "a := 'b\n" * n,
        "open tripled quotes": lambda n: "a := '''b\n" * n,
        "open interpolations": lambda n: "a:\n  {{b\n" * n,
        "open attributes": lambda n: "[a(\nb:\n" * n,
        "recipes and an error": lambda n: recipe * n + "a := (\n",
        "an error and recipes": lambda n: "a := (\n" + recipe * n,
        "a quote and recipes": lambda n: "a := '\n" + recipe * n,
        "errors and recipes": lambda n: ("a := (\n" + recipe) * n,
    }
    fine = True
    for kind, text in kinds.items():
        once, errors, items = seconds(program, text(10_000))
        twice, _, _ = seconds(program, text(20_000))
        print(f"{kind}: {once:.3f} s, at twice the length {twice:.3f} s; {errors} errors, {items} items")
        fine = fine and errors and twice < 3 * once + 0.05
    return fine


def main():
    program, recipes = sys.argv[1:3]
    count = int(sys.argv[3]) if len(sys.argv) > 3 else 2000
    passed = [four_errors(program), long_texts(program), break_rows(program, recipes, count)]
    sys.exit(0 if all(passed) else 1)


if __name__ == "__main__":
    main()
