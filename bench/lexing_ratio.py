#!/usr/bin/env python3
"""Times two programs on the files KIND.SIZE of a folder: lexing_ratio.py LEXER FORMATTER FOLDER

Both read a file as their standard input, in turn. Prints a row for each file: the bytes, the
tokens, the least processor time of nine runs of each program, its start included, both times over
the bytes, and how many times the lexer's time the formatter's is; and at last the greatest of these.
"""
import os
import sys

from table import RUNS, run


def measured(lexer, formatter, path):
    """What the lexer wrote, and the least seconds of both programs."""
    turns = [(run(lexer, path), run(formatter, path)) for _ in range(RUNS)]
    lexing, answer = min(lexed for lexed, _ in turns)
    return answer, lexing, min(seconds for _, (seconds, _) in turns)


def row(lexer, formatter, path, kind):
    """The row of a file, and the ratio in it."""
    answer, lexing, formatting = measured(lexer, formatter, path)
    size = os.path.getsize(path)
    tokens = answer.removeprefix("tokens: ")
    times = "%.4f | %.4f | %.1f | %.1f" % (lexing, formatting, lexing * 1e9 / size, formatting * 1e9 / size)
    ratio = formatting / lexing
    return "| %s | %d | %s | %s | %.1f |" % (kind, size, tokens, times, ratio), ratio


def main():
    lexer, formatter, folder = sys.argv[1:]
    names = [name.split(".") for name in os.listdir(folder)]
    ratios = []
    print("| justfile | bytes | tokens | lexing, s | formatting, s "
          "| lexing, ns a byte | formatting, ns a byte | times lexing |")
    print("|---|---:|---:|---:|---:|---:|---:|---:|")
    for kind, size in sorted(names, key=lambda name: (name[0], int(name[1]))):
        text, ratio = row(lexer, formatter, os.path.join(folder, kind + "." + size), kind)
        print(text, flush=True)
        ratios.append(ratio)
    print("\nOn these justfiles formatting takes at most %.1f times as long as lexing alone." % max(ratios))


if __name__ == "__main__":
    main()
