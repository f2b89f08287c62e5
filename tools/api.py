#!/usr/bin/env python3
"""Writes docs/API.md, the reference of the library, from the sources: api.py [--write]

- Each module of `justfile_syntax` with what it passes on, and then each crate for callers: of a type its fields or
  cases, its methods and the traits that it has; of a trait its methods; functions, constants and aliases. With each
  stands its doc comment, a method's and a field's up to the first full stop.
- Each kind of errors with its message, as `Messages.antt` of `justfile_token` defines it.
- Each law, with its whole doc comment, and each crate, with the first paragraph of its.

Without --write it prints what differs from the file, and ends with 1 if something does; so a public name that is
missing in the file is told. It also tells public items that have no doc comment. The gate of documents, documents.py,
runs it.
"""
import difflib
import re
import sys
from dataclasses import dataclass, field
from functools import cache
from pathlib import Path

TOP = Path(__file__).resolve().parent.parent
CRATES = TOP / "crates"
TARGET = TOP / "docs/API.md"

# The crates that callers name beside `justfile_syntax`, in the order of docs/LIBRARY.md.
FOR_CALLERS = """
    justfile_survey justfile_references justfile_mentions justfile_builtins justfile_lint justfile_facts justfile_problems
    justfile_problem_lines justfile_lines text_edits message_stream line_diff circles
""".split()
# Traits whose impls tell a caller nothing, or are told by the head of the page.
COMMON_TRAITS = {"Drop", "TryClone", "WriteTo", "Model"}
HEAD = """# Reference

Written by `tools/api.py --write` from the sources: the modules of `justfile_syntax`, the crates for other callers, the
errors, the laws, and all crates. [LIBRARY.md](LIBRARY.md) is where to begin. A contract is in the source, above the
body.

What takes memory is passed an allocator, `alloc`, and returns an error if there is none. Types that hold values have
`clone(&self, alloc)` for `Clone`.
"""


@dataclass
class Item:
    """A public item: its kind as `struct`, its name, its doc, its head on one line, and what is in it."""

    kind: str
    name: str
    doc: str
    head: str
    where: str
    parts: list = field(default_factory=list)  # of fields, cases and methods of a trait: (head, doc)
    methods: list = field(default_factory=list)  # (head, doc)
    traits: list = field(default_factory=list)


def bracketed(lines, start):
    """A head that begins in this line, on one line: up to its clauses, its body or its end, and the line after it."""
    text, at = "", start
    while at < len(lines):
        line = lines[at].strip()
        if text and re.match(r"(ensures|requires|ghost|where)\b", line):
            break
        text = f"{text} {line}" if text else line
        at += 1
        depth = sum(text.count(it) for it in "([") - sum(text.count(it) for it in ")]")
        if depth == 0 and (re.search(r"[{;]$", text) or re.search(r"\b(ensures|requires)\b", text)):
            break
    text = re.sub(r"\s*\b(ensures|requires)\b.*", "", text)
    text = re.sub(r"\s*[{;]\s*$", "", text)
    text = re.sub(r"^(pub (?:static|const) [^=]*?) = .*", r"\1", text)
    text = re.sub(r"\(\s+", "(", re.sub(r",?\s+\)", ")", text))
    return text, at


def doc_of(lines, at):
    """The doc comment above a line, as one paragraph; attributes may stand between."""
    found = []
    at -= 1
    while at >= 0 and re.match(r"\s*(///|#\[|\)\])", lines[at]):
        if lines[at].strip().startswith("///"):
            found.append(lines[at].strip()[3:].strip())
        at -= 1
    return re.sub(r"\s*# Errors\s+", " Errors: ", " ".join(reversed(found))).strip()


def derived(lines, at):
    """The traits that a type derives."""
    found = []
    at -= 1
    while at >= 0 and re.match(r"\s*(///|#\[)", lines[at]):
        if match := re.match(r"\s*#\[derive\((.*)\)\]", lines[at]):
            found += [it.strip().rpartition("::")[2] for it in match.group(1).split(",")]
        at -= 1
    return found


def members(lines, at):
    """The public members of a block that begins after this line: each head and doc, by indentation of four."""
    found = []
    while at < len(lines) and not lines[at].startswith("}"):
        yield at, lines[at]
        at += 1


def read_fields(item, lines, at):
    for place, line in members(lines, at):
        if match := re.match(r"    pub (\w+: .*?),?$", line):
            item.parts.append((match.group(1), doc_of(lines, place)))


def read_cases(item, lines, at):
    """The cases of an enum, each with its fields on one line."""
    case = None
    for place, line in members(lines, at):
        if match := re.match(r"    ([A-Z]\w*)(\(.*\))?(?: =.*)?(,| \{)?$", line):
            case = [match.group(1) + (match.group(2) or ""), doc_of(lines, place), []]
            item.parts.append(case)
        elif case and (match := re.match(r"        (\w+: .*?),?$", line)):
            case[2].append(match.group(1))
    item.parts = [(head + (" { " + ", ".join(of) + " }" if of else ""), doc) for head, doc, of in item.parts]


def read_methods(found, lines, at, prefix):
    for place, line in members(lines, at):
        if re.match(rf"    {prefix}(const )?fn \w", line):
            head, _ = bracketed(lines, place)
            found.append((re.sub(r"^pub ", "", head), doc_of(lines, place)))


IMPL = re.compile(r"impl(?:<.*?>)? (?:([\w:]+)(?:<.*>)? for )?&?(?:'\w+ )?(?:mut )?([A-Z]\w*)")
DECLARED = re.compile(r"pub (struct|enum|trait|fn|const fn|type|const|static) (\w+)")


@cache
def crate_items(crate):
    """The public items of a crate by name, and the impls of its types."""
    items, impls = {}, []
    for file in sorted((CRATES / crate / "src").rglob("*.rt")):
        lines = file.read_text().split("\n")
        for at, line in enumerate(lines):
            if match := DECLARED.match(line):
                head, after = bracketed(lines, at)
                kind = match.group(1).replace("const fn", "fn")
                item = Item(kind, match.group(2), doc_of(lines, at), head, str(file.relative_to(CRATES)))
                if kind == "struct":
                    item.traits = derived(lines, at)
                    read_fields(item, lines, after)
                elif kind == "enum":
                    item.traits = derived(lines, at)
                    read_cases(item, lines, after)
                elif kind == "trait":
                    read_methods(item.parts, lines, after, "")
                items.setdefault(item.name, item)
            elif line.startswith("impl") and (match := IMPL.match(line)):
                impls.append((match.group(1), match.group(2), lines, at))
    for trait, name, lines, at in impls:
        if name not in items:
            continue
        if trait is None:
            read_methods(items[name].methods, lines, at + 1, "pub ")
        else:
            items[name].traits.append(trait.rpartition("::")[2])
    return items


def named(crate, name):
    """The public item of a crate or of one that it passes it on from."""
    items = crate_items(crate)
    if name in items:
        return items[name]
    for file in (CRATES / crate / "src").rglob("*.rt"):
        for path, names in re.findall(r"pub use (\w+)::([^;]*);", file.read_text(), re.S):
            if re.search(rf"\b{name}\b", names) and (CRATES / path).is_dir():
                return named(path, name)
    return None


def modules():
    """The modules of `justfile_syntax` but that of the laws: its name, its doc, and the pairs of crate and name."""
    text = (CRATES / "justfile_syntax/src/lib.rt").read_text()
    for name, body in re.findall(r"^pub mod (\w+) \{\n(.*?)^\}", text, re.S | re.M):
        doc = " ".join(it.strip() for it in re.findall(r"^    //!(.*)$", body, re.M))
        pairs = []
        for path, group, single in re.findall(r"pub use ([\w:]+)::(?:\{([^}]*)\}|(\w+));", body):
            pairs += [(path.split("::")[0], it.strip()) for it in (group or single).split(",") if it.strip()]
        yield name, doc, pairs


def first_sentence(doc):
    return re.split(r"(?<=[.!?])\s", doc, maxsplit=1)[0]


def listed(pairs):
    """Lines of a list: a head in backticks and its doc."""
    for head, doc in pairs:
        yield f"- `{head}`" + (f": {first_sentence(doc)}" if doc else "")


def shown_traits(item):
    found = [it for it in dict.fromkeys(item.traits) if it not in COMMON_TRAITS]
    return f" Has {', '.join(f'`{it}`' for it in sorted(found))}." if found else ""


def shown(item):
    """The lines of an item."""
    yield f"**`{item.head}`**. {item.doc}{shown_traits(item)}".rstrip()
    yield ""
    plain = [f"`{head}`" for head, doc in item.parts if not doc] if item.kind == "enum" else []
    told = [it for it in item.parts if it[1] or item.kind != "enum"]
    lines = [f"- {', '.join(plain)}"] * bool(plain) + [*listed(told), *listed(item.methods)]
    if lines:
        yield from lines
        yield ""


def fields_in(piece):
    """The fields that a piece of a message shows: `a` of `a.now`, and what the calls in `f (g a) b` are passed."""
    piece = re.sub(r"\.(now|items)\b|codes \"[^\"]*\"", "", piece)
    applied = set(re.findall(r"(?:^|\()\s*(\w+)(?=\s)", piece))
    return dict.fromkeys(it for it in re.findall(r"\w+", piece) if it not in applied)


def messages():
    """Each kind of errors with its message, with the fields in braces."""
    text = (CRATES / "justfile_token/specs/Messages.antt").read_text()
    body = text.partition("abbrev pub kind_message")[2]
    for match in re.finditer(r"^kind_message \w+ \(?kinds\.(\w+)[^=]*= *\n? *(.*)$", body, re.M):
        kind, value = match.groups()
        made = ""
        for piece in re.findall(r'codes "(?:[^"\\]|\\.)*"|[^&]+', value):
            piece = piece.strip()
            if piece.startswith('codes "'):
                made += piece[7:-1].replace('\\"', '"').replace("\\\\", "\\").replace("\\n", " / ")
            elif piece:
                made += "{" + ", ".join(fields_in(piece)) + "}"
        yield kind, made


def page():
    yield HEAD
    told = set()
    for name, doc, pairs in modules():
        if name == "laws":
            continue
        told.update(pairs)
        yield f"## `{name}`"
        yield ""
        yield doc
        yield ""
        for crate, it in pairs:
            item = named(crate, it)
            if item is not None:
                yield from shown(item)
    for crate in FOR_CALLERS:
        if not (CRATES / crate).is_dir():
            continue
        yield f"## Crate `{crate}`"
        yield ""
        root = (CRATES / crate / "src/lib.rt").read_text()
        yield " ".join(it.strip() for it in re.findall(r"^//!(.*)$", root, re.M))
        yield ""
        for name, item in sorted(crate_items(crate).items(), key=lambda pair: (pair[1].where, pair[0])):
            if passed_on(root, name, item):
                yield from shown(item)
        for other, it in of_others(root):
            if (item := named(other, it)) is not None and (other, it) not in told:
                yield from shown(item)
    yield "## Errors"
    yield ""
    yield "Cases of `CompileErrorKind`, with the message that each shows; its fields are in braces."
    yield ""
    for kind, message in messages():
        yield f"- `{kind}`: {message}"
    yield ""
    yield "## Laws"
    yield ""
    yield "Functions that do nothing, whose contracts are statements about the definitions."
    yield ""
    for name, law in laws():
        yield f"- `{name}`: {law.doc}"
    yield ""
    yield "## Crates"
    yield ""
    yield "In the order of `crates.txt`: each after those that it uses."
    yield ""
    for name, doc in crates():
        yield f"- `{name}`: {doc}"


def laws():
    """Each law, by its name in `justfile_syntax::laws` or in a table's crate, in the order of names."""
    pairs = next(pairs for name, _, pairs in modules() if name == "laws")
    pairs = [*pairs, ("justfile_vocabulary", "all_keywords"), ("justfile_vocabulary", "all_attribute_kinds")]
    for crate, it in sorted(pairs, key=lambda pair: pair[1].split(" as ")[-1]):
        name, _, alias = it.partition(" as ")
        yield alias or name, named(crate, name)


def crates():
    """Each crate with the first paragraph of its doc comment."""
    for line in (TOP / "crates.txt").read_text().splitlines():
        name = line.partition(":")[0].split()[0]
        root = next(file for it in ("lib", "main") if (file := CRATES / name / f"src/{it}.rt").exists())
        doc = re.match(r"(?://!.*\n)+", root.read_text()).group(0)
        paragraph = re.split(r"^//!\s*$", doc, maxsplit=1, flags=re.M)[0]
        yield name, " ".join(it.strip() for it in re.findall(r"^//!(.*)$", paragraph, re.M))


def of_others(root):
    """What a root passes on of other crates: pairs of crate and name."""
    for crate, group, single in re.findall(r"^pub use (\w+)(?:::\w+)*::(?:\{([^}]*)\}|(\w+));", root, re.M):
        if (CRATES / crate).is_dir():
            yield from ((crate, it.strip()) for it in (group or single).split(",") if it.strip())


def passed_on(root, name, item):
    """Whether a caller can name an item: its root passes it on, or its module is public."""
    module = item.where.partition("/src/")[2].removesuffix(".rt").split("/")[0]
    return module == "lib" or re.search(rf"pub mod {module}\b", root) or re.search(
        rf"pub use [^;]*\b{name}\b[^;]*;", root
    )


def problems():
    """Public items of the reference without a doc comment."""
    for _, _, pairs in modules():
        for crate, it in pairs:
            item = named(crate, it.partition(" as ")[0])
            if item is not None and not item.doc:
                yield f"crates/{item.where}: {it} has no doc comment"
            for head, doc in item.methods if item else []:
                if not doc:
                    yield f"crates/{item.where}: {it}: {head} has no doc comment"


def check(write):
    """What is wrong with the reference; with `write` it is written."""
    made = "\n".join(page()).rstrip() + "\n"
    made = re.sub(r"\n{3,}", "\n\n", made)
    yield from problems()
    old = TARGET.read_text() if TARGET.exists() else ""
    if made == old:
        return
    if write:
        TARGET.write_text(made)
        return
    changed = [it for it in difflib.ndiff(old.split("\n"), made.split("\n")) if it[0] in "+-"]
    yield f"docs/API.md isn't that of the sources: --write writes it; {len(changed)} lines, the first: {changed[0]}"


def main():
    found = list(check("--write" in sys.argv[1:]))
    print("\n".join(found)) if found else None
    return 1 if found else 0


if __name__ == "__main__":
    sys.exit(main())
