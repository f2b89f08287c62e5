#!/usr/bin/env python3
"""Compares two formatters on 44 kinds of justfiles: ratio.py ORIGINAL FORMATTER FOLDER

Each is a path, or a command with arguments, of a program that reads a justfile as its standard input,
formats it and writes it. ORIGINAL is a program around the Rust crate. Writes the texts into the folder,
one after the other, and prints a row for each: its bytes, and how many times the original's instructions,
peak memory and processor time the formatter takes; and at last where these are the greatest.

Instructions are those of one run on 100 KB, as valgrind counts them. Memory and time are the least of
seven runs on 1 MB, which alternate between the two programs; memory is what GNU time tells. The start of the
programs is included. Where a run takes more than a minute of a processor, or valgrind ten, the figure is `-`.
"""
import os
import random
import re
import resource
import shlex
import signal
import subprocess
import sys

from hostile import LONG, PARTS, PLACES, REJECTED, REJECTED_TOKENS, ROWS, peak
from justfiles import bodies, deep, dense
from realistic import justfile

RUNS = 7
COUNTED = 100_000
TIMED = 1_000_000
# The most seconds of a processor that a run may take, and one that valgrind counts.
MOST = 60
MOST_COUNTED = 600
# What the kernel ends a run by that takes more.
OVER = (-signal.SIGXCPU, -signal.SIGKILL)


def repeated(before, part, after, size):
    """A part that is repeated up to a size in bytes, between two texts."""
    return before + part * ((size - len(before) - len(after)) // len(part.encode())) + after


def of_parts(before, part, after):
    """The function from a size to such a text."""
    return lambda size: repeated(before, part, after, size)


def of_names(before, part, after, is_shuffled=False):
    """The function from a size to a text whose parts hold the numbers from 0 on."""
    def text(size):
        numbers = list(range(size // len(part.format(100_000))))
        if is_shuffled:
            random.Random(1).shuffle(numbers)
        return before + "".join(part.format(number) for number in numbers) + after
    return text


def options(size):
    """A recipe with many parameters, each of which is an option."""
    numbers = range(size // len("[arg('p100000', long)]\n p100000"))
    return "".join(f"[arg('p{n}', long)]\n" for n in numbers) + "a" + "".join(f" p{n}" for n in numbers) + ":\n"


def repeated_option(size):
    """A recipe with many parameters, half of which repeat the name of an option after the others."""
    count = size // len(" q100000 p")
    return "[arg('p', long)]\na" + "".join(f" q{n}" for n in range(count)) + " p" * count + ":\n"


# Further parts that are repeated up to a size.
OTHER_PARTS = {
    "imports": "import 'a'\n",
    "modules": "mod a 'b'\n",
    "settings that are true": "set lists\n",
    "format strings": "a := f'b{{c}}d'\n",
    "parameters of recipes": "a b c='d' *e:\n",
    "one parameter": "a b:\n",
    "three parameters": "a b c d:\n",
    "six parameters": "a b c d e f g:\n",
}


def kinds():
    """The kinds of texts: each name with the function from a size to its text."""
    found = {"realistic": justfile, "long bodies": bodies, "dense": dense, "deep": deep}
    found.update((name, of_parts("", part, "")) for name, part in {**PARTS, **OTHER_PARTS}.items())
    found.update((name, of_parts(*parts)) for name, parts in {**LONG, **REJECTED, **REJECTED_TOKENS}.items())
    before, after = PLACES["assignment"]
    for name in ("+", "/ before", "else if"):
        part, last = ROWS[name]
        found[f"row of `{name}`"] = of_parts(before, part, last + after)
    found["parameters of one recipe"] = of_names("a", " p{}", ":\n")
    found["the same in no order"] = of_names("a", " p{}", ":\n", is_shuffled=True)
    found["parameters and one option"] = of_names("[arg('p1', long)]\na", " p{}", ":\n")
    found["groups of one recipe"] = of_names("", "[group('g{}')]\n", "a:\n")
    found["options of one recipe"] = options
    found["an option repeated"] = repeated_option
    return found


def limited(seconds):
    """What limits the seconds of a processor of a child before it starts."""
    return lambda: resource.setrlimit(resource.RLIMIT_CPU, (seconds, seconds + 1))


def ended(command, code):
    """Whether a run came to an end within its limit. Stops where it was no run of the program."""
    if code == 127 or (code < 0 and code not in OVER):
        sys.exit(f"{command[0]} ended by {code}")
    return code not in OVER


def seconds_of(command, path):
    """The seconds of a processor of one run, or None if it takes too many."""
    child = os.fork()
    if child == 0:
        os.dup2(os.open(path, os.O_RDONLY), 0)
        os.dup2(os.open(os.devnull, os.O_WRONLY), 1)
        os.dup2(os.open(os.devnull, os.O_WRONLY), 2)
        limited(MOST)()
        os.execvp(command[0], command)
    _, status, usage = os.wait4(child, 0)
    is_ended = ended(command, os.waitstatus_to_exitcode(status))
    return usage.ru_utime + usage.ru_stime if is_ended else None


def kilobytes_of(command, path):
    """The peak of memory of one run in KB, or None if it takes too long."""
    code, kilobytes = peak(command, path, limited(MOST))
    return kilobytes if ended(command, code) else None


def run(command, path):
    """The seconds of a processor and the peak of memory in KB of one run, each None if it takes too long."""
    seconds = seconds_of(command, path)
    return seconds, None if seconds is None else kilobytes_of(command, path)


def counted(command, path):
    """The instructions of one run, or None if valgrind takes too long."""
    counting = ["valgrind", "--tool=callgrind", "--callgrind-out-file=/dev/null", *command]
    with open(path, "rb") as file:
        pipes = {"stdin": file, "stdout": subprocess.DEVNULL, "stderr": subprocess.PIPE}
        done = subprocess.run(counting, **pipes, preexec_fn=limited(MOST_COUNTED))
    found = re.search(rb"Collected : (\d+)", done.stderr)
    return int(found.group(1)) if found and ended(command, done.returncode) else None


def least(figures):
    """The least of some figures, or None if one is missing."""
    figures = list(figures)
    return None if None in figures else min(figures)


def quotient(figure, other):
    """How many times the other figure this one is, or None if one of them is missing."""
    return None if None in (figure, other) else figure / max(other, 0.0001)


def shown(figure, form):
    """A figure in a table."""
    return "-" if figure is None else form % figure


def repeat(action):
    """Seven results of an action, or one with what is missing."""
    first = action()
    return [first] if None in first else [first, *(action() for _ in range(RUNS - 1))]


def write(path, text):
    with open(path, "w", newline="", encoding="utf-8") as file:
        file.write(text)


def ratios(original, formatter, path, text):
    """The bytes of the longer text, and the ratios of instructions, memory and time."""
    write(path, text(COUNTED))
    instructions = quotient(counted(formatter, path), counted(original, path))
    write(path, text(TIMED))
    runs = repeat(lambda: (*run(original, path), *run(formatter, path)))
    seconds, memory, own_seconds, own_memory = (least(figures) for figures in zip(*runs))
    size = os.path.getsize(path)
    os.remove(path)
    return size, (instructions, quotient(own_memory, memory), quotient(own_seconds, seconds))


def greatest(found, at):
    """The greatest known figure of a column, and the name of its row."""
    name = max((name for name in found if found[name][at] is not None), key=lambda name: found[name][at])
    return found[name][at], name


def main():
    original, formatter = map(shlex.split, sys.argv[1:3])
    os.makedirs(sys.argv[3], exist_ok=True)
    path = os.path.join(sys.argv[3], "text")
    print("| justfile | bytes | instructions | memory | time |")
    print("|---|---:|---:|---:|---:|")
    found = {}
    for name, text in kinds().items():
        size, found[name] = ratios(original, formatter, path, text)
        figures = (shown(it, "%.2f") for it in found[name])
        print("| %s | %s | %s | %s | %s |" % (name, f"{size:,}", *figures), flush=True)
    print()
    for at, what in enumerate(("instructions", "memory", "time")):
        print("The most %s: %.2f times those of the original, on %s." % (what, *greatest(found, at)))


if __name__ == "__main__":
    main()
