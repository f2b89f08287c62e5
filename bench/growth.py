#!/usr/bin/env python3
"""Shows how a formatter grows with its text, on the 44 kinds of justfiles of ratio.py: growth.py FORMATTER FOLDER

FORMATTER is a path, or a command with arguments, of a program that formats its standard input. Writes
the texts into the folder, one after the other, and prints a row for each: its bytes, the instructions, the
peak of memory and the processor seconds of the shorter text, and how many times that the text of twice the
size takes; and at last where these ratios are the greatest.

Instructions are those of one run on 150 and on 300 KB, as valgrind counts them, which justfmt formats in
parts. Memory and time are the least of seven runs on 1 and on 2 MB. The start of the program is included.
`-` is what takes too long (ratio.py).
"""
import os
import shlex
import sys

from ratio import TIMED, counted, greatest, kinds, least, quotient, repeat, run, shown, write

WHAT = ("instructions", "memory", "time")
COUNTED = 150_000


def measured(formatter, path, text, size):
    """The bytes of a text, and the memory in KB and the seconds that it takes."""
    write(path, text(size))
    seconds, memory = (least(figures) for figures in zip(*repeat(lambda: run(formatter, path))))
    return os.path.getsize(path), memory, seconds


def growth(formatter, path, text):
    """What a text of 1 MB takes, and the ratios for the text of twice its size."""
    instructions = []
    for size in (COUNTED, 2 * COUNTED):
        write(path, text(size))
        instructions.append(counted(formatter, path))
    size, memory, seconds = measured(formatter, path, text, TIMED)
    _, twice_memory, twice_seconds = measured(formatter, path, text, 2 * TIMED)
    os.remove(path)
    pairs = ((instructions[1], instructions[0]), (twice_memory, memory), (twice_seconds, seconds))
    return (size, instructions[0], memory, seconds), tuple(quotient(*pair) for pair in pairs)


def main():
    formatter = shlex.split(sys.argv[1])
    os.makedirs(sys.argv[2], exist_ok=True)
    path = os.path.join(sys.argv[2], "text")
    print("| justfile | bytes | instructions at 150 KB | times at 300 KB | MB at 1 MB | times | seconds | times |")
    print("|---|---:|---:|---:|---:|---:|---:|---:|")
    found = {}
    for name, text in kinds().items():
        (size, instructions, memory, seconds), found[name] = growth(formatter, path, text)
        more = [shown(it, "%.2f") for it in found[name]]
        first = (shown(instructions, "%d"), shown(quotient(memory, 1024), "%.1f"), shown(seconds, "%.3f"))
        row = (name, f"{size:,}", first[0], more[0], first[1], more[1], first[2], more[2])
        print("| %s | %s | %s | %s | %s | %s | %s | %s |" % row, flush=True)
    print()
    for at, what in enumerate(WHAT):
        print("The most %s: %.2f times, on %s." % (what, *greatest(found, at)))


if __name__ == "__main__":
    main()
