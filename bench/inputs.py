#!/usr/bin/env python3
"""Writes the inputs of the benchmark: inputs.py FOLDER SIZE..

For each size in bytes, FOLDER gets one file for each kind of text, named KIND.SIZE, of that size
within a line's length. Each text is lexed without a fault.
"""
from texts import repeated, write


def tokens(size):
    """Short tokens, nearly one for each byte."""
    return repeated("a:=(b+c)/[d,!e]*{f==g}&&h||i\n", size)


def body_lines(size):
    """Four lines of a body, each a quarter of the text, with an interpolation at each end."""
    frame = "  {{a}}", "{{b}}\n"
    filler = size // 4 - len(frame[0]) - len(frame[1])
    line = frame[0] + repeated("echo { x } ", filler) + frame[1]
    return "a:\n" + line * 4


def blank_lines(size):
    """A body of two lines, and between them blank lines, empty or with blanks in them."""
    return "a:\n  b\n" + repeated("\n  \n\t\n    \n\r\n", size) + "  c\n"


def closed_blank_lines(size):
    """The same, but the last line ends the body."""
    return "a:\n  b\n" + repeated("\n  \n\t\n    \n\r\n", size) + "c:\n"


def indentation(size):
    """Each line one blank deeper than the line before, and at the end all levels closed."""
    lines = []
    written = 0
    while written < size:
        lines.append(" " * len(lines) + "a\n")
        written += len(lines[-1])
    return "".join(lines) + "b\n"


def one_string(size):
    """One string over many lines, with quotes and backslashes in it."""
    return 'a := """' + repeated('x \\" "" \\\\ y {{ z\n', size) + '"""\n'


KINDS = {
    "tokens": tokens,
    "body_lines": body_lines,
    "blank_lines": blank_lines,
    "closed_blank_lines": closed_blank_lines,
    "indentation": indentation,
    "one_string": one_string,
}


if __name__ == "__main__":
    write(KINDS)
