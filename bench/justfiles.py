#!/usr/bin/env python3
"""Writes justfiles for the benchmark of the formatter: justfiles.py FOLDER SIZE..

For each size in bytes, FOLDER gets one file for each kind of justfile, named KIND.SIZE, of at most
that size: a kind repeats its lines as long as they fit. Each is formatted without a fault.
"""
from texts import repeated, write

# How many expressions are open at once, of at most 256.
DEPTH = 250

# An expression of short tokens, nearly one for each byte, with most of the operators.
SHORT = "(b+c)/[d,!e]++f(g,h)==i&&j||k"

# Expressions that are nested to the depth.
NESTED = (
    "(" * DEPTH + "b" + ")" * DEPTH,
    "[" * DEPTH + "b" + "]" * DEPTH,
    "f(" * DEPTH + "b" + ")" * DEPTH,
    "b||" * DEPTH + "b",
    "if a==b{" * DEPTH + "c" + "}else{d}" * DEPTH,
)


def recipes(line, size):
    """Four recipes, each a quarter of the text and with this line repeated as its body."""
    header = "build:\n"
    return (header + repeated(line, size // 4 - len(header) - 1) + "\n") * 4


def dense(size):
    """Assignments of short tokens."""
    return repeated("a:=" + SHORT + "\n", size)


def dense_bodies(size):
    """Bodies of interpolations of short tokens, with a byte of text between them."""
    return recipes("  {{a}}-{{" + SHORT + "}}\n", size)


def bodies(size):
    """Bodies of lines of text, each with an interpolation."""
    return recipes("  echo some text that the shell reads, and {{a+b}} in it\n", size)


def deep(size):
    """Assignments of nested expressions."""
    return repeated("".join("a:=" + value + "\n" for value in NESTED), size)


def deep_bodies(size):
    """Bodies of interpolations of nested expressions."""
    return recipes("".join("  {{" + value + "}}\n" for value in NESTED), size)


KINDS = {
    "dense": dense,
    "dense_bodies": dense_bodies,
    "bodies": bodies,
    "deep": deep,
    "deep_bodies": deep_bodies,
}


if __name__ == "__main__":
    write(KINDS)
