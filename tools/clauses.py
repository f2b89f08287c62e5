"""The clauses that CLAIMS cites promise by promise: each stands where it says.

`NAME` of `Type::call` is a clause of that call, or a named part of its contract; `NAME` of `Record` is a part of the
definition of this name, or of a type of the code; law `law` (`NAME`) is a clause of the law.
"""
import re
from functools import cache

from figures import CRATES, NAMES, halves
from trusted import WORD, File

CITED = re.compile(r"((?:`\w+`(?:, | and )?)+) of (?:each )?`(\w+)(?:::(\w+))?`")
LAW = re.compile(r"laws? `(\w+)` \(([^)]*)\)")
BLOCK = re.compile(r"^(?:pub )?(?:struct|enum|trait) (\w+)|^impl(?:<.*?>)? (?:\S.* for )?&?(?:'\w+ )?(?:\w+::)*(\w+)")
CALL = re.compile(r'^\s*(?:pub(?:\([^)]*\))? )?(?:const |extern "C" )?fn (\w+)')
ALIAS = re.compile(r"^pub type (\w+)(?:<.*?>)? = (\w+)", re.M)
CLAUSE = re.compile(r"^\s*(?:pub )?(?:ensures|requires|ghost) (?!use\b)(\w+)")


@cache
def sources():
    """The clauses of each call, by its type and name, and those and the calls of each type."""
    calls, types = {}, {}
    for path in CRATES.glob("*/src/**/*.rt"):
        owner, call = None, None
        for line in path.read_text().split("\n"):
            if found := BLOCK.match(line):
                owner, call = found.group(1) or found.group(2), None
            elif line == "}" and call is None:
                owner = None
            elif found := CALL.match(line):
                call = found.group(1)
                types.setdefault(owner, set()).add(call)
                for key in {(owner, call), (None, call)}:
                    calls.setdefault(key, set())
            elif found := CLAUSE.match(line):
                types.setdefault(owner, set()).add(found.group(1))
                for key in {(owner, call), (None, call)}:
                    calls.setdefault(key, set()).add(found.group(1))
    return calls, types


@cache
def aliases():
    """The types that others stand for."""
    return {name: of for path in CRATES.glob("*/src/**/*.rt") for name, of in ALIAS.findall(path.read_text())}


@cache
def definitions():
    """The words of each definition, by its name, and the definitions of each file, by the file's."""
    found = {}
    for path in CRATES.glob("*/specs/**/*.antt"):
        file = File(path)
        found.setdefault(path.stem, set()).update(file.units)
        for name, lines in file.units.items():
            found.setdefault(name, set()).update(WORD.findall("\n".join(lines)))
    return found


def parts(owner, call):
    """The names that may be cited of a call, a type, a definition or a law; None if there is none of this name."""
    calls, types = sources()
    if call or owner[0].islower():
        return calls.get((owner, call) if call else (None, owner), calls.get((None, call)))
    known = [it[name] for it in (types, definitions()) for name in (owner, aliases().get(owner)) if name in it]
    return set().union(*known) if known else None


def citations(line):
    """The names that a line cites, each with a type, a definition, a call or a law. Crates and `Display` have none."""
    for names, owner, call in CITED.findall(line):
        if owner not in (*NAMES, "Display"):
            yield names, owner, call
    for law, names in LAW.findall(line):
        yield names, law, ""


def check():
    text = (CRATES.parent / "docs/CLAIMS.md").read_text()
    start = text.index("\n## What is promised")
    for number, line in halves(text[start : text.index("\n## ", start + 1)])[0]:
        for names, owner, call in citations(line):
            known, cited = parts(owner, call), f"{owner}::{call}" if call else owner
            for name in re.findall(r"`(\w+)`", names):
                if known is None or name not in known:
                    at = text.count("\n", 0, start) + number
                    wrong = "nothing of this name" if known is None else "no such part"
                    yield f"docs/CLAIMS.md:{at}: `{name}` of `{cited}`: {wrong}"
