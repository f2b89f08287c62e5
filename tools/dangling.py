#!/usr/bin/env python3
"""Lists the imports that name nothing: dangling.py

A check finds these too, after minutes; this takes seconds, for use after a name or a file was changed. It reads the
`use` lines of all .antt files, the `ghost use` lines of all sources, and the paths in their tactics, and looks for
the file and the name in specs/ and proofs/ of this repository. What the checker itself makes of a source (`declared`,
`contracts`, goals) is only looked up as a file.
"""
import functools
import re
import sys

sys.dont_write_bytecode = True
from trusted import CRATES, File, imports  # noqa: E402


@functools.cache
def names_in(path):
    """The names that can be imported from a file, or nothing if there is no such file."""
    if not path.exists():
        return None
    file, text = File(path), path.read_text()
    rulesets = re.findall(r"^\s*(?:pub )?ruleset (\S+)", text, re.M)
    together = [name for line in re.findall(r"^\s+([^\s:]+(?: [^\s:]+)+) : ", text, re.M) for name in line.split()]
    return {*file.units, *file.owner, *file.imports, *rulesets, *together}


def of_source(crate, parts):
    """Whether the module of a source exists that a path goes through, or its root declares what the path names."""
    root = CRATES / crate / "src/lib.rt"
    if root.exists() and re.search(rf"pub (?:struct|enum|trait) {parts[0]}\b", root.read_text()):
        return True
    modules = [part for part in parts if re.match(r"[a-z]", part)]
    paths = (CRATES / crate / "src" / "/".join(modules[:count]) for count in range(1, len(modules) + 1))
    return any(path.with_suffix(".rt").exists() for path in paths)


def missing(head, names):
    """What is missing of a module, as `Rattle.justfile_model.specs.Lexing.Next`, and of the names imported from it."""
    found = re.match(r"Rattle\.(\w+)\.(specs|proofs)\.(.+)$", head)
    if not found or not (CRATES / found.group(1)).exists():
        return []
    crate, kind, rest = found.groups()
    parts = rest.split(".")
    if parts[0] == "declared":
        return [] if of_source(crate, parts[1:]) else [head]
    if parts[0] == "contracts" or parts[-1] in ("Goals", "Given"):
        return []
    known = names_in(CRATES / crate / kind / ("/".join(parts) + ".antt"))
    if known is None:
        owners = names_in(CRATES / crate / kind / ("/".join(parts[:-1]) + ".antt"))
        return [] if owners and parts[-1] in owners else [head]
    return [f"{head}: {name}" for name in names if name not in known]


def by_path(text, crate):
    """The modules and names that the tactics of a source name by paths."""
    for head, path in re.findall(r"\b(crate|justfile_\w+)((?:::\w+)+)", text):
        parts = path.split("::")[1:]
        if parts[0] in ("specs", "proofs") and len(parts) > 2:
            yield "Rattle." + ".".join([crate if head == "crate" else head, *parts[:-1]]), parts[-1]


def by_alias(text, aliases):
    """The modules and names that a file names by aliases."""
    text = re.sub(r"(?:^|\s)--\s.*$|(?<![:/])//.*$", "", text, flags=re.M)
    for alias, name in set(re.findall(r"(?<![\w.])(\w+)\.([a-z][\w'-]*)", text)):
        if alias in aliases:
            yield aliases[alias], name


def main():
    bad = False
    kinds = ("specs/**/*.antt", "proofs/**/*.antt", "src/**/*.rt")
    for path in sorted(path for kind in kinds for path in CRATES.glob(f"*/{kind}")):
        text = path.read_text()
        named, aliases = imports(text, r"(?:ghost |pub |unfoldable |abbrev )*use ")
        wanted = [*named.values(), *((head, None) for head in aliases.values())]
        if path.suffix == ".rt":
            wanted += by_alias(text, aliases)
            wanted += by_path(text, path.relative_to(CRATES).parts[0])
        for head, name in wanted:
            for what in missing(head, [name] if name else []):
                print(f"{path.relative_to(CRATES)}: {what}")
                bad = True
    return 1 if bad else 0


if __name__ == "__main__":
    sys.exit(main())
