#!/usr/bin/env python3
"""Checks the lists of docs/CLAIMS.md under "What you have to trust", or writes their counts with --write.

What a statement rests on is found by name: from the definitions that the clauses of public calls cite, on to all that
these are made of. Each list is for a group of calls, and has the files with definitions that the lists before it
don't have. A row's count is the number of the lines of these definitions in its files, comments aside, rounded up to
ten. Files without a path are those of `justfile_model`.
"""
import functools
import re
import sys
import textwrap
from pathlib import Path

TOP = Path(__file__).resolve().parent.parent
CRATES = TOP / "crates"
CLAIMS = TOP / "docs/CLAIMS.md"
WORD = re.compile(r"[^\s(){}\[\].,;:λ]+")


class File:
    """A file of definitions: what it imports, and the lines of each definition by its name."""

    def __init__(self, path):
        text = path.read_text()
        self.path = path
        self.crate = path.relative_to(CRATES).parts[0]
        self.name = path.relative_to(CRATES).as_posix() if self.crate != "justfile_model" else path.name
        self.imports, self.aliases = imports(text, r"(?:pub |unfoldable |abbrev )*use ")
        self.units, self.owner = {}, {}
        self.read_units(text)

    def read_units(self, text):
        """Stores the lines of each definition, with the headers of the modules around it, and which definition each
        constructor and each field belongs to."""
        levels, headers, current = [0], [], None
        for line in text.split("\n"):
            bare = line.strip()
            if not bare or bare.startswith("--") or re.match(r"(pub |unfoldable |abbrev )*use |unfolding", bare):
                continue
            indent = len(line) - len(line.lstrip())
            while indent < levels[-1]:
                levels.pop()
                headers.pop()
            words = re.sub(r"^(?:(?:abbrev|unfoldable|pub|data|record)\s+)*", "", bare)
            if indent == levels[-1]:
                if re.match(r"(?:module|mutual)(?:\s|$)", words):
                    levels.append(indent + 2)
                    headers.append(line)
                    continue
                name = WORD.match(words)
                if name and name.group(0) != current:
                    current = name.group(0)
                    self.units.setdefault(current, [it for it in headers if "module" in it])
            if current is None:
                continue
            self.units[current].append(line)
            field = re.match(r"\s+(?:pub )?([^\s(]+) :", line)
            if field:
                self.owner.setdefault(field.group(1), current)

    def find(self, name):
        """The definition of this name, or the one that has this constructor, here or where it is imported from."""
        if name in self.units:
            return self, name
        if name in self.owner:
            return self, self.owner[name]
        return imported(self.imports, self.aliases, name)

    def cites(self, unit):
        """The definitions that one is made of."""
        text = "\n".join(self.units[unit])
        for word in set(WORD.findall(text)):
            yield (self, word) if word in self.units else imported(self.imports, {}, word)
        for alias, name in set(re.findall(r"([\w-]+)\.([^\s(){}\[\],;:.]+)", text)):
            yield imported({}, self.aliases, f"{alias}.{name}")

    def count(self, unit):
        return sum(1 for line in self.units[unit] if not line.strip().startswith("module"))


def imports(text, use):
    """What the `use` lines of a text import by name, and the modules that they give a name."""
    names, aliases = {}, {}
    for head, tail in re.findall(rf"^\s*{use}([\w.+]+?)\.\{{([^}}]*)\}}", text, re.M):
        for one in tail.split(","):
            old, _, new = one.strip().partition(" as ")
            names[new or old] = (head, old)
    for head, alias in re.findall(rf"^\s*{use}([\w.+]+) as (\w+)", text, re.M):
        aliases[alias] = head
    return names, aliases


def imported(names, aliases, word):
    """The file and the definition that a word names by way of these imports, if it is one of this repository."""
    alias, _, name = word.partition(".")
    if name:
        head, old = aliases.get(alias, ""), name
    else:
        head, old = names.get(word, ("", ""))
    file = file_of(head)
    return file.find(old) if file else None


@functools.cache
def file_of(head):
    found = re.match(r"Rattle\.(\w+)\.specs\.([\w.]+)$", head)
    if not found or found.group(2).split(".")[0] in ("declared", "contracts"):
        return None
    path = CRATES / found.group(1) / "specs" / (found.group(2).replace(".", "/") + ".antt")
    return File(path) if path.exists() else None


def cited(source, calls):
    """The definitions that the clauses of these functions of a source file cite."""
    text = (CRATES / source).read_text()
    names, aliases = imports(text, "ghost use ")
    for call in calls:
        start = re.search(rf'\n\s*(?:pub(?:\(crate\))? )?(?:extern "C" )?fn {call}\b', text).end()
        clauses = text[start : start + re.search(r"\n\s*\{\n", text[start:]).start()]
        for word in set(WORD.findall(clauses)):
            yield imported(names, {}, word)
        for alias, name in set(re.findall(r"(\w+)\.(\w+)", clauses)):
            yield imported({}, aliases, f"{alias}.{name}")


def closure(roots):
    seen, left = set(), [it for it in roots if it]
    while left:
        it = left.pop()
        if it not in seen:
            seen.add(it)
            left.extend(other for other in it[0].cites(it[1]) if other and other not in seen)
    return seen


def lines_by_file(units):
    lines = {}
    for file, unit in units:
        lines[file.name] = lines.get(file.name, 0) + file.count(unit)
    return lines


GROUPS = [
    [("justfile_format/src/run.rt", ["run"])],
    [
        ("justfile_lex/src/lexer.rt", ["lex"]),
        ("justfile_parse/src/parser.rt", ["parse", "parse_source"]),
        ("justfile_ast/src/ast.rt", ["print", "print_to", "printable"]),
    ],
    [
        ("justfile_files/src/run.rt", ["run"]),
        ("justfile_files/src/lint.rt", ["lint"]),
        ("line_diff/src/unified.rt", ["unified_diff"]),
    ],
    [("justfile_c/src/lib.rt", ["justfile_format"])],
    [
        ("justfile_lint/src/file.rt", ["lint", "lint_with_circles"]),
        ("justfile_problems/src/circular.rt", ["circles_of", "error"]),
        ("justfile_problems/src/listing.rt", ["problems"]),
        ("justfile_problems/src/error.rt", ["error"]),
    ],
    [
        ("justfile_problem_lines/src/files.rt", ["lines_of_files"]),
        ("justfiles/src/linted.rt", ["lines_of", "paths_in"]),
    ],
    [("editor_server/src/server.rt", ["react"]), ("editor_server/src/stream.rt", ["serve"])],
    [
        ("justfile_analysis/src/analysis.rt", ["analysis_of"]),
        ("justfile_server/src/findings.rt", ["findings_of"]),
        ("justfile_server/src/fixes.rt", ["fixes_of"]),
        ("justfile_analysis/src/mentioned.rt", ["mentions_of"]),
        ("justfile_server/src/links.rt", ["links_of"]),
        ("justfile_server/src/choices.rt", ["choices_at"]),
        ("justfile_server/src/runs.rt", ["runs_of"]),
        ("justfile_signatures/src/signature.rt", ["signature_at"]),
    ],
]


def checked(rows, lines, title):
    """The rows of a list with their counts rewritten, and which of its files are too many or missing."""
    listed, made, wrong = set(), [], []
    for row in rows:
        files = re.findall(r"`([^`]+\.antt)`", row)
        listed.update(files)
        for file in files:
            if file not in lines:
                wrong.append(f"{title}: {file} is not cited")
        count = -(-sum(lines.get(it, 0) for it in files) // 10) * 10
        row = re.sub(r" \(\d+\): ", f" ({count}): ", " ".join(row.split()), count=1)
        made.append(textwrap.fill(row, 120, subsequent_indent="  ", break_on_hyphens=False, break_long_words=False))
    for file in sorted(set(lines) - listed):
        wrong.append(f"{title}: {file} is missing ({lines[file]} lines)")
    return made, wrong


def main():
    text = CLAIMS.read_text()
    start = text.index("## What you have to trust")
    end = text.index("\n## ", start)
    section, seen, wrong = text[start:end], set(), []
    lists = re.findall(r"(?:^- .*\n(?:  .*\n)*)+", section, re.M)
    for group, old in zip(GROUPS, lists, strict=True):
        units = closure(it for source, calls in group for it in cited(source, calls)) - seen
        seen |= units
        rows = re.split(r"^(?=- )", old, flags=re.M)[1:]
        made, found = checked(rows, lines_by_file(units), rows[0].split(" (")[0])
        wrong += found
        section = section.replace(old, "\n".join(made) + "\n")
    if "--write" in sys.argv:
        CLAIMS.write_text(text[:start] + section + text[end:])
    elif section != text[start:end]:
        wrong.append("a count is not what the definitions have: --write writes it")
    print("\n".join(f"docs/CLAIMS.md: {it}" for it in wrong), end="\n" if wrong else "")
    return 1 if wrong else 0


if __name__ == "__main__":
    sys.exit(main())
