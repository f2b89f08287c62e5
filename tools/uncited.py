#!/usr/bin/env python3
"""Lists the definitions and lemmas that nothing cites: uncited.py

A declaration of specs/ or proofs/ is cited by another declaration of its file, by a file that imports it from there,
or by its path, as in `using(crate::proofs::Rest::marked_end)`. Lines that only import a name don't cite it, nor do
comments. Answers to goals have the names of the goals, and examples are there to be read: the files Answers.antt and
Invariants.antt of proofs/, and files whose names end in Examples, cite but are not listed.

tools/documents.py fails on what this lists.
"""
import re
import sys

sys.dont_write_bytecode = True
from trusted import CRATES, WORD, File, imports  # noqa: E402

IMPORT = re.compile(r"^\s*(?:ghost |pub |unfoldable |abbrev )*use .*$", re.M)


def is_listed(path, name):
    """Whether a name is listed: not that of an answer, which the checker gives, nor that of an example."""
    answer = path.name in ("Answers.antt", "Invariants.antt") and "proofs" in path.parts
    return not answer and not path.stem.endswith("Examples") and name not in ("infixl", "infixr", "mod", "ruleset")


def module(path):
    """The path by which a file is imported."""
    return "Rattle." + ".".join(path.relative_to(CRATES).with_suffix("").parts)


def words(text):
    """The words of a text, with those that are read out of an alias or a path as pairs."""
    plain = set(WORD.findall(text))
    plain |= {part for word in plain for part in word.split(".")}
    return plain, set(re.findall(r"([\w-]+)\.([^\s(){}\[\],;:.]+)", text))


def cited_by_use(text, use, comment):
    """The pairs of a module and a name that a file cites beyond its own declarations."""
    names, aliases = imports(text, use)
    text = re.sub(comment, "", text, flags=re.M)
    passed = r"^\s*(?:unfoldable )?pub use %s\.\{[^}]*%s"
    again = {it for it in names.values() if re.search(passed % tuple(map(re.escape, it)), text, re.M)}
    plain, dotted = words(IMPORT.sub("", text))
    by_name = {it for new, it in names.items() if new in plain}
    by_alias = {(aliases[alias], name) for alias, name in dotted if alias in aliases}
    return again | by_name | by_alias


def cited_by_path(text, crate):
    """The pairs of a module and a name that the tactics of a source file name by paths."""
    for head, path in re.findall(r"\b(\w+)((?:::\w+)+)", text):
        parts = path.split("::")[1:]
        yield "Rattle." + ".".join([crate if head == "crate" else head, *parts[:-1]]), parts[-1]


def uncited():
    """Each definition and lemma that nothing cites, after its file."""
    paths = (path for part in ("specs", "proofs") for path in sorted(CRATES.glob(f"*/{part}/**/*.antt")))
    cited, files = set(), [File(path) for path in paths]
    for file in files:
        cited |= cited_by_use(file.path.read_text(), r"(?:pub |unfoldable |abbrev )*use ", r"(?:^|\s)--\s.*$")
    for path in [*CRATES.glob("*/src/**/*.rt"), *CRATES.glob("*/must-fail/*.edit")]:
        text = path.read_text()
        cited |= cited_by_use(text, r"ghost use ", r"(?<!:)//.*$")
        cited |= set(cited_by_path(text, path.relative_to(CRATES).parts[0]))
    for file in files:
        texts = {unit: re.sub(r"\s--\s.*$", "", "\n".join(lines), flags=re.M) for unit, lines in file.units.items()}
        inside = {unit: words(text)[0] for unit, text in texts.items()}
        for unit in file.units:
            owned = {unit} | {field for field, owner in file.owner.items() if owner == unit}
            outside = any((module(file.path), name) in cited for name in owned)
            within = any(owned & found for other, found in inside.items() if other != unit)
            if is_listed(file.path, unit) and not outside and not within:
                yield f"{file.path.relative_to(CRATES)}: {unit}"


def main():
    for it in uncited():
        print(it)
    return 0


if __name__ == "__main__":
    sys.exit(main())
