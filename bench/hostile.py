#!/usr/bin/env python3
"""Runs a formatter on long texts and on texts of twice their length: hostile.py PROGRAM FOLDER

Writes the texts into the folder, one after the other. Prints a row for each: how many parts it has, its
bytes, the status of the program, its processor time and its peak memory, and the ratios of these for the
text of twice the length. A time is the least of three runs, that of a row of
operands of one run.
"""
import os
import random
import subprocess
import sys

OPERANDS = 1_000_000
ATTRIBUTES = 8_000
BYTES = 1_000_000

# The parts of a row of operands: the one that is repeated, and the last one.
ROWS = {
    "+": ("b + ", "b"),
    "++": ("b ++ ", "b"),
    "/": ("b / ", "b"),
    "/ before": ("/ ", "b"),
    "&&": ("b && ", "b"),
    "!": ("!", "b"),
    "else if": ("if b { c } else ", "{ d }"),
}

# The place of a row: the text before it and the text after it. A default is a value, which takes no
# operator but `!`.
PLACES = {
    "assignment": ("a := ", "\n"),
    "attribute": ("[doc(", ")]\nfoo:\n"),
    "argument": ("foo: (a ", ")\n"),
    "body": ("foo:\n    {{ ", " }}\n"),
    "default": ("foo a=(", "):\n"),
    "value of an option": ("[arg('a', long, value=", ")]\nfoo a:\n"),
}

# Texts of one part that is repeated up to a size.
PARTS = {
    "assignments": "a := b\n",
    "comments": "# a\n",
    "literals": "a := 'b'\n",
    "recipes": "a:\n",
    "bodies": "a:\n    b {{c}}\n",
    "dependencies": "a b: c d\n    e\n",
    "settings": "set shell := ['a']\n",
    "calls": "a := b(c)\n",
    "aliases": "alias a := b\n",
    "functions": "a(b) := b\n",
    "blank lines": "\n",
    "docs": "# a\nb:\n\n",
    "options of recipes": "[arg('b', long)]\na b:\n",
}

# Texts of one construct with many parts: the text before them, the part, and the text after them.
LONG = {
    "lines of one body": ("a:\n", "    b {{c}}\n", ""),
    "dependencies of one recipe": ("a:", " b", "\n"),
    "elements of one list": ("a := [", "b, ", "]\n"),
    "arguments of one call": ("a := b(", "c, ", ")\n"),
}

# Texts that are rejected, after a long part that is read over.
REJECTED = {
    "blanks before an error": ("a := ", " ", "]\n"),
    "digits of a number": ("[arg('b', max='", "1", "')]\na *b:\n"),
    "tabs before an error": ("a := ", "\t", "]\n"),
    "tabs after an error": ("] #", "\t", "\n"),
    "characters after a tab and an error": ("]\t#", "é", "\n"),
}

# The same, of tokens: each takes memory.
REJECTED_TOKENS = {
    "byte order marks": ("", "\ufeff", ""),
}


def row_texts():
    """Each row of operands in each place, and with its last operand left out."""
    for name, (part, last) in ROWS.items():
        for place, (before, after) in PLACES.items():
            yield f"{name}, {place}", OPERANDS, lambda n: before + part * n + last + after
        yield f"{name}, rejected", OPERANDS, lambda n: "a := " + part * n + "\n"


def compared_texts():
    """Two attributes of one recipe that begin with the same row, which are compared for their order."""
    for name, (part, last) in ROWS.items():
        yield f"{name}, compared", OPERANDS // 2, lambda n: (
            f"[env({part * n}{last}, a), env({part * n}{last}, b)]\nfoo:\n"
        )


def shuffled(count):
    """The numbers below count, in an order that is the same in each run."""
    numbers = list(range(count))
    random.Random(1).shuffle(numbers)
    return numbers


def named_texts():
    """Attributes and parameters of one recipe, whose names are of one length and stand in their order or in none."""
    for place, order in (("in order", range), ("in no order", shuffled)):
        yield f"groups, {place}", ATTRIBUTES, lambda n: "".join(f"[group('g{i:05}')]\n" for i in order(n)) + "foo:\n"
        yield f"options, {place}", ATTRIBUTES, lambda n: "".join(
            f"[arg('p{i:05}', long)]\n" for i in order(n)
        ) + "foo " + parameters(range(n)) + ":\n"
        yield f"parameters, {place}", ATTRIBUTES, lambda n: "foo " + parameters(order(n)) + ":\n"
        yield f"parameters and one option, {place}", ATTRIBUTES, lambda n: (
            "[arg('p00001', long)]\nfoo " + parameters(order(n)) + ":\n"
        )
    yield "an option repeated", ATTRIBUTES, lambda n: (
        "[arg('p', long)]\nfoo " + parameters(range(n)) + " p" * n + ":\n"
    )
    yield "groups in one line", ATTRIBUTES, lambda n: (
        "[" + ", ".join(f"group('g{i:05}')" for i in range(n)) + "]\nfoo:\n"
    )


def parameters(numbers):
    """The names of parameters with these numbers."""
    return " ".join(f"p{number:05}" for number in numbers)


def part_texts():
    for name, part in PARTS.items():
        yield name, BYTES // len(part), lambda n: part * n
    for name, (before, part, after) in LONG.items():
        yield name, BYTES // len(part), lambda n: before + part * n + after
    for name, (before, part, after) in REJECTED.items():
        yield name, 10 * BYTES, lambda n: before + part * n + after
    for name, (before, part, after) in REJECTED_TOKENS.items():
        yield name, BYTES, lambda n: before + part * n + after


def seconds_of(program, path):
    """The status and the processor seconds of one run."""
    child = os.fork()
    if child == 0:
        os.dup2(os.open(path, os.O_RDONLY), 0)
        os.dup2(os.open(os.devnull, os.O_WRONLY), 1)
        os.dup2(os.open(os.devnull, os.O_WRONLY), 2)
        os.execv(program, [program])
    _, status, usage = os.wait4(child, 0)
    return os.waitstatus_to_exitcode(status), usage.ru_utime + usage.ru_stime


def peak(command, path, before=None):
    """The status and the peak of memory in KB of one run, before which the child calls a function.

    GNU time starts it, since the peak of a child of Python is at least Python's own.
    """
    quiet = ["sh", "-c", 'exec "$@" >/dev/null 2>&1', "sh", *command]
    words = ["/usr/bin/time", "--quiet", "--format=%M", "--output=/dev/stdout", *quiet]
    with open(path, "rb") as file:
        done = subprocess.run(words, stdin=file, stdout=subprocess.PIPE, preexec_fn=before)
    code = done.returncode if done.returncode < 128 else 128 - done.returncode
    return code, int(done.stdout.split()[-1])


def run(program, path):
    """The status, the processor seconds and the peak of memory in KB of one run."""
    status, seconds = seconds_of(program, path)
    return status, seconds, peak([program], path)[1]


def measured(program, path, text, count):
    """The bytes of a text, the status, the least seconds and the least peak of so many runs."""
    with open(path, "w", newline="", encoding="utf-8") as file:
        file.write(text)
    runs = [run(program, path) for _ in range(count)]
    size = os.path.getsize(path)
    os.remove(path)
    return size, runs[0][0], min(seconds for _, seconds, _ in runs), min(peak for _, _, peak in runs)


def main():
    program, folder = sys.argv[1:]
    os.makedirs(folder, exist_ok=True)
    path = os.path.join(folder, "text")
    print("| text | parts | bytes | status | seconds | MB | seconds of twice as many | MB |")
    print("|---|---:|---:|---:|---:|---:|---:|---:|")
    for texts, count in ((row_texts(), 1), (compared_texts(), 1), (named_texts(), 3), (part_texts(), 3)):
        for name, parts, text in texts:
            size, status, seconds, peak = measured(program, path, text(parts), count)
            _, twice_status, twice, twice_peak = measured(program, path, text(2 * parts), count)
            statuses = status if status == twice_status else f"{status}, {twice_status}"
            times = "%.3f | %.1f | %.1f times | %.1f times" % (seconds, peak / 1000, twice / seconds, twice_peak / peak)
            print(f"| `{name}` | {parts:,} | {size:,} | {statuses} | {times} |", flush=True)


if __name__ == "__main__":
    main()
