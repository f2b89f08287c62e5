#!/usr/bin/env python3
"""Checks the documents against the repository: documents.py [--write]

- Each link between documents resolves, its heading included.
- Each path and each name in backticks exists in the repository: as a file, as a folder, or as a word of its code,
  comments aside. Where a crate is named with them, as in `NAME` of `CRATE`, they exist in that crate, and in a section
  of CLAIMS that is named for a crate they exist in that one.
- Each clause that CLAIMS cites promise by promise stands in the contract or the definition that it names (clauses.py).
- Each script that a document names has its run bit, and each command of a block of code is there.
- Each block of code after a line that ends in a path in backticks and a colon stands in that file, line by line.
- Each figure that can be computed is as stated, and no command takes two times (figures.py).
- Each example of a table of LANGUAGE that rejects some is the text of a row (ROWS).
- No line of prose or of code has more than 120 characters, and no row of a table more than 400.
- All documents together have at most so many words, those apart that a script makes. The last line that is printed says
  how many.
- docs/API.md is what api.py makes of the sources, so each public name is in it, with its doc comment; docs/SIZES.md is
  what sizes.py makes of the crates and of docs/times.txt.
- Each source of a crate begins with a line `//!`, which says what it has.
- Each definition and each lemma is cited (uncited.py).

Prints what it finds, and the words of all documents; ends with 1 if it found something. With --write it rewrites the
figures of docs/PERFORMANCE.md, of sizes and of the times from docs/times.txt; the map of docs/PROOFS.md; and all of
docs/API.md and docs/SIZES.md.
"""
import os
import re
import sys
from functools import cache
from subprocess import run

sys.dont_write_bytecode = True
import api  # noqa: E402
import clauses  # noqa: E402
import figures  # noqa: E402
import sizes  # noqa: E402
import uncited  # noqa: E402
from figures import NAMES, TOP, halves  # noqa: E402

LONGEST = {"line": 120, "row of a table": 400}
MOST_WORDS = 26_320

# Names in backticks that the repository's code doesn't have, each group with its reason.
EXCEPTIONS = {
    "Rust": "FromIterator read_to_end",
    "what the Rust crate has and this repository doesn't": """
        ArgumentPatternRegex ConstEval ExpressionContext RecipeAlias absolute check_pattern_match
        check_value_count expressions_mut recipe_path references variable_references
    """,
    "Rattle's kit, its commands, flags and messages, and the names that its checker makes": """
        Lts base dac8208d650f15bf holes incremental jobs kit logic oantt plant prop_f put_payload
        rattle scope tell try unsupported
    """,
    "what rt builds": "out",
    "git, the system and editors": """
        kernel mm transparent_hugepage vimrc
    """,
    "placeholders, and prefixes of names": "CASE CRATE FIELD MODULE NAME PID entries_ over_",
}
# Names that sections of CLAIMS have though the section's crate doesn't: the program whose language this is, and what
# the crate never returns.
ELSEWHERE = {None: {"just"}, "justfile_lex": {"Numbers"}}
WORD = re.compile(r"[A-Za-z_]\w*")
PATH = re.compile(
    r"[\w./+-]+\.(?:antt|rt|md|py|sh|c|rows|edit|just|txt)\b"
    r"|\b(?:crates|docs|examples|tools|bench|specs|proofs|src|data|must-fail)/[\w./-]*"
)


def listed(*flags):
    """What `git ls-files` lists."""
    found = run(["git", "-C", TOP, "ls-files", "-z", *flags], capture_output=True, check=True)
    return [it for it in found.stdout.decode().split("\0") if it]


def tracked():
    """The files of the repository."""
    return [it for it in listed("--cached", "--others", "--exclude-standard") if (TOP / it).is_file()]


def runnable():
    """The files whose run bit is set: in the repository, and of new files in the folder."""
    new = {it for it in listed("--others", "--exclude-standard") if os.access(TOP / it, os.X_OK)}
    return new | {it.partition("\t")[2] for it in listed("--stage") if it.startswith("100755")}


FILES = tracked()
MADE = ("docs/API.md", "docs/SIZES.md")
DOCUMENTS = [it for it in FILES if it.endswith(".md") and it not in MADE]
CODE = [it for it in FILES if not it.endswith(".md") and it != "tools/documents.py"]
RUNNABLE = runnable()


def bare(file):
    """The text of a file without its comments."""
    text = (TOP / file).read_text(errors="replace")
    if file.endswith(".antt"):
        return re.sub(r"^\s*--.*$|\s-- .*$", "", text, flags=re.M)
    if file.endswith(".rt"):
        return re.sub(r"(?<!:)//.*$", "", text, flags=re.M)
    return text


@cache
def words(crate):
    """The words of a crate's code and the names of its files, or of one of its folders; without a crate of all."""
    found = set()
    for file in CODE:
        if crate is None or file.startswith(f"crates/{crate}/"):
            found.update(WORD.findall(bare(file)))
            found.update(WORD.findall(file))
    return found


@cache
def allowed():
    return {word for group in EXCEPTIONS.values() for word in group.split()}


@cache
def paths():
    """Each path of the repository, from each of its folders on, as `specs/Tree.antt` and `Tree.antt` of one file."""
    found = set()
    for file in FILES:
        parts = file.split("/")
        for start in range(len(parts)):
            for end in range(start + 1, len(parts) + 1):
                found.add("/".join(parts[start:end]))
    return found


def spans(prose):
    """Each piece of inline code: its line number, itself, and the crate whose words it may have, if there is one."""
    section = None
    for number, line in prose:
        if line.startswith("## "):
            found = re.match(r"## `(\w+)`:", line)
            section = found.group(1) if found and found.group(1) in NAMES else None
        for found in re.finditer(r"(`+) ?(.+?) ?\1(?!`)", line):
            crate = crate_after(line[found.end() :]) or crate_before(line[: found.start()], section)
            yield number, found.group(2), crate


def crate_after(rest):
    """The crate that is named after a name, as in `NAME`, `OTHER` and `THIRD` of `CRATE`."""
    found = re.match(r"(?:(?:,| and|, and) `[^`]+`)* of `(\w+)`", rest)
    return found.group(1) if found and found.group(1) in NAMES else None


def crate_before(line, section):
    """The crate whose words a name has after this beginning of a line, in a section named for a crate: in the column of
    definitions those of its specs/, and in that of tests those of all tests."""
    cell = line.count("|") if line.startswith("|") else 0
    if not section:
        return None
    if cell == 4 or re.search(r"[Rr]ows of [^.;]*$", line):
        return "tests"
    if cell != 3 or "as for" in line.split("|")[3]:
        return section
    lead = re.search(r"(?:`(\w+)`|\b(model)): [^;|.]*$", line)
    named = lead and (lead.group(1) or "justfile_model")
    return (named if named in NAMES else section) + "/specs"


def known(crate):
    """The words that a name with this crate may have. Those of justfiles and the names of laws stand in any section."""
    if crate == "tests":
        return set(NAMES).union(tests(), *map(words, ("text_rows", "justfile_rows", "justfile_syntax")))
    if crate.endswith("/specs"):
        return words(crate) | set(NAMES)
    elsewhere = ELSEWHERE[None] | ELSEWHERE.get(crate, set())
    return words(crate) | words("justfile_vocabulary") | laws() | elsewhere | set(NAMES)


@cache
def tests():
    """The words of the files that have tests, as functions or as data."""
    texts = {file: bare(file) for file in CODE if file.startswith("crates/")}
    return {it for file, text in texts.items() if "/data/" in file or "#[test]" in text for it in WORD.findall(text)}


@cache
def laws():
    """The names of the laws that the library passes on."""
    module = bare("crates/justfile_syntax/src/lib.rt").partition("pub mod laws {")[2].partition("\n}\n")[0]
    return set(WORD.findall(module))


def check_span(code, crate):
    """What is wrong with a piece of inline code, if something is. One with « is a row."""
    if "«" in code:
        return None
    for path in PATH.findall(code):
        if path.strip("/.") not in paths() and not allowed() & set(WORD.findall(path)):
            return f"{path}: no such file"
    for word in WORD.findall(re.sub(r"'[^']*'|\"[^\"]*\"", "", code)):
        if len(word) > 1 and word not in allowed():
            if word not in words(None):
                return f"{word}: no such name"
            if crate and "/" not in code and word not in known(crate):
                return f"{word}: not in {crate}"
    return None


def check_runnable(prose):
    """Each script that inline code names has its run bit."""
    for number, line in prose:
        for code in re.findall(r"`([^`]+)`", line):
            for path in PATH.findall(code):
                if path in FILES and path not in RUNNABLE and (TOP / path).read_bytes().startswith(b"#!"):
                    yield f"{number}: {path} has no run bit"


def check_commands(blocks):
    """Each file that a command of a block runs is there with its run bit, and each folder that it goes to is there."""
    for number, line, language in blocks:
        if language not in ("", "sh", "yaml"):
            continue
        for command in re.split(r"&&|\|\||[|;(]", re.sub(r"\$\(.*?\)", "", line)):
            name, *rest = command.split() or [""]
            if name == "cd" and rest and not (TOP / rest[0].rstrip(")")).is_dir():
                yield f"{number}: {rest[0]}: no such folder"
            if re.fullmatch(r"(?:tools|bench|examples|\.ci)/\S+", name) and name not in RUNNABLE:
                yield f"{number}: {name}: {'no run bit' if name in FILES else 'no such file'}"


def check_widths(text):
    """No line is too long."""
    for number, line in enumerate(text.split("\n"), 1):
        kind = "row of a table" if line.startswith("|") else "line"
        if len(line) > LONGEST[kind]:
            yield f"{number}: {len(line)} characters, and a {kind} has at most {LONGEST[kind]}"


def quotes(text):
    """Each block of code with the path that the line before it names, as in `crates/NAME/src/lib.rt`:, and its line."""
    for found in re.finditer(r"`([\w./-]+/[\w./-]+)`:\n\n```\w*\n(.*?)^```$", text, re.M | re.S):
        yield text.count("\n", 0, found.start()) + 1, found.group(1), found.group(2)


def check_quotes(file, text):
    """A quoted block stands in its source. A line `...` in it stands for any lines."""
    for number, path, block in quotes(text):
        source = TOP / path
        if not source.is_file():
            continue
        have, at = source.read_text(), 0
        for part in re.split(r"^ *\.\.\.\n", block, flags=re.M):
            part = part.strip("\n")
            if part and (at := have.find(part, at)) < 0:
                yield f"{file}:{number}: the code isn't that of {path}: {part.splitlines()[0]}"
                break


ROW_NOTATION = str.maketrans({"\\": "\\\\", "⏎": "\\n", "⇥": "\\t", "␍": "\\r"})


def check_examples(text):
    """Each example of a table with a column `rejected`, and each elsewhere with a sign for a line end, is a row's."""
    rows = "".join((TOP / it).read_text() for it in FILES if it.endswith(".rows"))
    rejects = False
    for number, line in enumerate(text.split("\n"), 1):
        rejects = line.startswith("|") and (rejects or line.endswith("| rejected |"))
        examples = [it for _, it in re.findall(r"(`+)(.+?)\1(?!`)", line)]
        last = re.findall(r"(`+)(.+?)\1(?!`)", line.split(" | ")[-1]) if rejects else []
        wanted = {it for _, it in last} | {it for it in examples if re.search("[⏎⇥␍]", it)}
        for it in sorted(wanted):
            if f"«{it.translate(ROW_NOTATION)}»" not in rows:
                yield f"{number}: `{it}`: no row has this text"


@cache
def headings(file):
    """The anchors of a document's headings."""
    text = re.sub(r"^```.*?^```", "", (TOP / file).read_text(), flags=re.M | re.S)
    return {
        re.sub(r"[^\w\- ]", "", title.lower().replace("`", "")).strip().replace(" ", "-")
        for title in re.findall(r"^#+ (.*)$", text, re.M)
    }


def check_links(file, text):
    for target in re.findall(r"\]\(([^)\s]+)\)", re.sub(r"`[^`]*`", "", text)):
        if "://" in target:
            continue
        path, _, anchor = target.partition("#")
        found = (TOP / file).parent / path if path else TOP / file
        if not found.exists():
            yield f"{target}: no such document"
        elif anchor and anchor not in headings(found.resolve().relative_to(TOP).as_posix()):
            yield f"{target}: no such heading"


def check_heads():
    for file in FILES:
        if re.match(r"crates/\w+/src/.*\.rt$", file) and not (TOP / file).read_text().startswith("//!"):
            yield f"{file}: no line //! at its head"


def check_citations():
    """What nothing cites: a reader would ask what it is for."""
    for it in uncited.uncited():
        yield f"crates/{it}: nothing cites it"


def check_document(file, text):
    """What is wrong with a document apart from its figures."""
    prose, blocks = halves(text)
    yield from (f"{file}: {it}" for it in check_links(file, text))
    yield from check_quotes(file, text)
    examples = check_examples(text) if file == "docs/LANGUAGE.md" else []
    for check in (check_runnable(prose), check_commands(blocks), check_widths(text), examples):
        yield from (f"{file}:{it}" for it in check)
    for number, code, crate in spans(prose):
        if wrong := check_span(code, crate):
            yield f"{file}:{number}: `{code}`: {wrong}"


def main():
    found = list(figures.check({it: (TOP / it).read_text() for it in DOCUMENTS}, "--write" in sys.argv))
    found.extend([*clauses.check(), *check_heads(), *api.check("--write" in sys.argv), *sizes.check("--write" in sys.argv)])
    found.extend(check_citations())
    for file in DOCUMENTS:
        found.extend(check_document(file, (TOP / file).read_text()))
    words = sum(len((TOP / it).read_text().split()) for it in DOCUMENTS)
    if words > MOST_WORDS:
        found.append(f"{words - MOST_WORDS:,} words too many: cut, or say what is new in the place of what is old")
    print("\n".join([*found, f"{words:,} words in {len(DOCUMENTS)} documents, of at most {MOST_WORDS:,}"]))
    return 1 if found else 0


if __name__ == "__main__":
    sys.exit(main())
