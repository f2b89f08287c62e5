#!/usr/bin/env python3
"""Prints the words of rows: words.py [WORD..]

For each program of rows, each word with its input and what is found, from the doc comments of the cases of `Word` in
its word.rt. With words, these alone; ends with 1 if one isn't there.
"""
import re
import sys
import textwrap
from pathlib import Path

CRATES = Path(__file__).resolve().parent.parent / "crates"


def words_of(file):
    """Each word of a program with its doc comment."""
    text = file.read_text()
    cases = re.search(r"enum Word \{\n(.*?)^\}", text, re.S | re.M).group(1)
    docs = {case: " ".join(re.findall(r"/// ?(.*)", doc)) for doc, case in re.findall(r"((?:    ///.*\n)*)    (\w+),", cases)}
    return {word: docs[case] for word, case in re.findall(r'\("(\w+)",\s*Word::(\w+)', text)}


def main():
    asked, found = sys.argv[1:], set()
    for file in sorted(CRATES.glob("*/src/word.rt")):
        shown = {word: doc for word, doc in words_of(file).items() if not asked or word in asked}
        found.update(shown)
        if shown:
            print(f"{file.parts[-3]}:")
        for word, doc in shown.items():
            print(textwrap.fill(f"{word}  {doc}", 115, initial_indent="  ", subsequent_indent="      "))
    return 0 if found.issuperset(asked) else 1


if __name__ == "__main__":
    sys.exit(main())
