#!/usr/bin/env python3
"""Tells where a rule is, and what a call promises: where.py WORD..

With one word that names a definition: where it is defined, with the comment above it; the definitions that cite it;
the functions whose clauses cite it, which are the code of the rule; and the folders of proofs that cite it. With one
that names a function: its place, its doc comment and its contract. With other words: the definitions and the functions
whose names, comments or doc comments have all of them, or words that begin with them.
"""
import re
import signal
import sys
from functools import cache

sys.dont_write_bytecode = True
from trusted import CRATES  # noqa: E402

DEFINED = re.compile(r"^\s*(?:(?:abbrev|unfoldable|pub|data|record)\s+)*pub (?:data |record |abbrev |unfoldable )*([^\s(:]+)")
FUNCTION = re.compile(r'^\s*(?:pub(?:\([^)]*\))? )?(?:const |extern "C" )?fn (\w+)')
MOST = 25


def shown(path):
    return str(path.relative_to(CRATES))


def above(lines, at, mark):
    """The comment above a line."""
    found = []
    while at > 0 and lines[at - 1].strip().startswith((mark, "#[")):
        at -= 1
        if lines[at].strip().startswith(mark):
            found.append(lines[at].strip()[len(mark) :].strip())
    return " ".join(reversed(found))


@cache
def definitions():
    """Each definition: its name, its place, its comment and its lines."""
    found = []
    for path in sorted(CRATES.glob("*/specs/**/*.antt")):
        lines = path.read_text().split("\n")
        starts = [it for it, line in enumerate(lines) if (name := defined(line)) and name not in ("mod", "use")]
        for at, end in zip(starts, [*starts[1:], len(lines)]):
            place = f"{shown(path)}:{at + 1}"
            found.append((defined(lines[at]), place, above(lines, at, "--"), "\n".join(lines[at + 1 : end])))
    return found


def defined(line):
    """The name that a line begins to define."""
    found = DEFINED.match(line)
    return found and found.group(1)


@cache
def functions():
    """Each function: its name, its place, its doc comment and its clauses."""
    found = []
    for path in sorted(CRATES.glob("*/src/**/*.rt")):
        lines = path.read_text().split("\n")
        for at, line in enumerate(lines):
            if match := FUNCTION.match(line):
                end = at + 1
                while end < len(lines) and lines[end].strip() != "{" and not FUNCTION.match(lines[end]):
                    end += 1
                found.append((match.group(1), f"{shown(path)}:{at + 1}", above(lines, at, "///"), "\n".join(lines[at:end])))
    return found


def cites(text, name):
    return re.search(rf"(?<![\w-]){re.escape(name)}(?![\w-])", text) is not None


def proofs(name):
    """The folders of proofs that cite a definition, each with how many files do."""
    counts = {}
    for path in CRATES.glob("*/proofs/**/*.antt"):
        if cites(path.read_text(), name):
            folder = shown(path).split("/proofs/")[0] + "/proofs"
            counts[folder] = counts.get(folder, 0) + 1
    return sorted(counts.items())


def listing(title, lines):
    if lines:
        print(f"{title}:")
        print("\n".join(f"  {it}" for it in lines[:MOST]))
        if len(lines) > MOST:
            print(f"  and {len(lines) - MOST} more")


def contract(clauses):
    """The lines of a function's head that are clauses."""
    found = re.search(r"^\s*(?:ensures|requires)\b.*", clauses, re.M | re.S)
    return "\n" + found.group(0) if found else ""


def tell(name):
    """Tells of functions and of a definition; whether there is one of this name."""
    calls = [f"{place}  {doc}{contract(head)}" for it, place, doc, head in functions() if it == name]
    listing("functions", calls)
    places = [f"{place}  {comment}" for it, place, comment, _ in definitions() if it == name]
    if not places:
        return bool(calls)
    listing("defined in", places)
    listing("cited by", [f"{place}  {it}" for it, place, _, body in definitions() if it != name and cites(body, name)])
    listing("code", [f"{place}  {it}: {doc}" for it, place, doc, clauses in functions() if cites(clauses, name)])
    listing("proofs", [f"{folder}: {count} files" for folder, count in proofs(name)])
    return True


def search(words):
    """Tells what has all of these words; whether something has."""

    def has(text):
        parts = re.findall(r"[a-z0-9]+", re.sub(r"([a-z])([A-Z])", r"\1 \2", text).lower().replace("_", " "))
        return all(any(part.startswith(word.lower()) for part in parts) for word in words)

    found = [f"{place}  {it}: {comment}" for it, place, comment, _ in definitions() if has(f"{it} {comment}")]
    code = [f"{place}  {it}: {doc}" for it, place, doc, _ in functions() if has(f"{it} {doc}")]
    listing("definitions", found)
    listing("code", code)
    return bool(found or code)


def main():
    signal.signal(signal.SIGPIPE, signal.SIG_DFL)
    words = sys.argv[1:]
    if not words:
        print(__doc__.partition("\n")[0], file=sys.stderr)
        return 2
    return 0 if (len(words) == 1 and tell(words[0])) or search(words) else 1


if __name__ == "__main__":
    sys.exit(main())
