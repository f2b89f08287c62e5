#!/usr/bin/env python3
"""Times a program on the files KIND.SIZE of a folder: table.py PROGRAM FOLDER

The program reads a file as its standard input. Prints a row for each file, and one for no input:
the bytes, what the program wrote, the least processor time of nine runs, its start included, and
that time over the bytes.
"""
import os
import resource
import subprocess
import sys

RUNS = 9


def processor_seconds():
    """The processor time of the runs so far."""
    usage = resource.getrusage(resource.RUSAGE_CHILDREN)
    return usage.ru_utime + usage.ru_stime


def run(program, path):
    """The seconds of one run, and what it wrote."""
    with open(path, "rb") as file:
        before = processor_seconds()
        done = subprocess.run([program], stdin=file, capture_output=True, check=True)
        return processor_seconds() - before, done.stdout.decode().strip()


def print_row(program, kind, path):
    seconds, answer = min(run(program, path) for _ in range(RUNS))
    size = os.path.getsize(path)
    each = "%.1f" % (seconds * 1e9 / size) if size else ""
    print("| %s | %d | %s | %.4f | %s |" % (kind, size, answer, seconds, each))


def main():
    program, folder = sys.argv[1:]
    names = [name.split(".") for name in os.listdir(folder)]
    print("| text | bytes | answer | seconds | ns a byte |")
    print("|---|---:|---|---:|---:|")
    print_row(program, "nothing", os.devnull)
    for kind, size in sorted(names, key=lambda name: (name[0], int(name[1]))):
        print_row(program, kind, os.path.join(folder, kind + "." + size))


if __name__ == "__main__":
    main()
