"""The figures of the documents: which ones are stated, and what the repository has.

- The table of the whole repository in docs/PERFORMANCE.md, of sizes and of the times of docs/times.txt (sizes.py).
- Counts in sentences: wrong bodies, crates, files that name a neighbour.
- The map of docs/PROOFS.md: the lines of the folders that a row names, and how many of their files name a neighbour.
- Times in sentences, each that stands soon after a command. A command has one time in all documents, and one that
  proves a crate from nothing has that of the crate and of all below it.

Counts of rows aren't stated anywhere: the outputs of the programs that run rows have them.
"""
import re
import textwrap
from subprocess import run

from sizes import CRATES, NAMES, TOP, from_nothing, lines, longest_chain, measured, sizes, table

PERFORMANCE = TOP / "docs/PERFORMANCE.md"
PROOFS = TOP / "docs/PROOFS.md"

WORDS = {word: count for count, word in enumerate("zero one two three four five six seven eight nine ten".split())}
WORDS |= {"a": 1, "an": 1, "half a": 0.5}
AMOUNT = "|".join(sorted(WORDS, key=len, reverse=True))
TIME = re.compile(rf"\b({AMOUNT}|\d[\d,]*) (CPU )?(second|minute|hour)s?( on the clock)?\b")
COMMAND = re.compile(r"`([^`]*\b(?:rt (?:try|check|run|lib|ci)|tools/\w+|bench/\w+)\b[^`]*)`")
SECONDS = {"second": 1, "minute": 60, "hour": 3600}
SOON = 100


# Sizes and times


def whole():
    """The table of the whole repository: its sizes, the gate's time on the clock and of the processor, the longest
    chain."""
    functions, code, tests, specs, proofs = (sum(column) for column in zip(*map(sizes, NAMES)))
    times = measured()[1]
    clock, cpu = times["all", "clock"]
    row = (len(NAMES), functions, code + tests, specs, proofs, clock, cpu, longest_chain(times)[0])
    head = ("crates", "functions", "code", "definitions", "proofs")
    head += ("s: the gate on the clock", "s: of the processor", "s: the longest chain")
    return table(head, [[f"{it:.0f}" for it in row]])


def written(write):
    """The table and the sentence on times, as PERFORMANCE has them; with `write` they are written."""
    text = PERFORMANCE.read_text()
    old = re.compile(r"^\| crates .*\n(?:\|.*\n)+", re.M).search(text).group(0)
    made = text.replace(old, whole())
    how = textwrap.fill(f"Measured: {measured()[0]}.", 115, break_on_hyphens=False)
    made = re.sub(r"(?<=\n\n)Measured: (.+\n)*", lambda _: how + "\n", made)
    if made != text and write:
        PERFORMANCE.write_text(made)
    elif made != text:
        yield "docs/PERFORMANCE.md: its figures are not those of the crates and of docs/times.txt: --write writes them"


# The map of the proofs


def naming(folders, name):
    """How many files of some folders name a word."""
    files = [path for folder in folders for path in (CRATES / folder).rglob("*.antt")]
    return sum(1 for path in files if re.search(rf"\b{name}\b", path.read_text()))


def map_row(row, neighbours):
    """A row of the map with its figures: the lines of the folders in its third cell, and the files of each neighbour."""
    cells = row.strip("|").split("|")
    folders = re.findall(r"`([\w/]+)`", cells[2])
    made = [str(lines(path for folder in folders for path in (CRATES / folder).rglob("*.antt")))]
    made += [str(naming(folders, name) or "") for name in neighbours]
    return "|" + "|".join([*cells[:3], *(f" {it} ".replace("  ", " ") for it in made)]) + "|"


def mapped(write):
    """The map as PROOFS has it; with `write` its figures are written. Its head names the neighbours in backticks."""
    text = PROOFS.read_text()
    head, _, *rows = re.search(r"^\| step .*\n(?:\|.*\n)+", text, re.M).group(0).splitlines()
    neighbours = re.findall(r"`(\w+)`", head)
    made = text
    for row in rows:
        made = made.replace(row, map_row(row, neighbours))
    if made != text and write:
        PROOFS.write_text(made)
    elif made != text:
        yield "docs/PROOFS.md: its map isn't that of the folders: --write writes it"


# Sentences


def is_code(line):
    """Whether a line that continues no paragraph is one of an indented block of code."""
    return re.match(r"    \s*[^\s*-]", line) is not None


def halves(text):
    """The paragraphs outside of blocks of code, each on one line, and the lines of blocks with their language, both
    with the number of their first line. An item of a list, a heading and a row of a table is a paragraph."""
    fenced, prose, blocks = None, [], []
    ended = True
    for number, line in enumerate(text.split("\n"), 1):
        if line.lstrip().startswith("```"):
            fenced, ended = None if fenced is not None else line.strip("` "), True
        elif fenced is not None or (ended and is_code(line)):
            blocks.append((number, line, fenced or ""))
            ended = True
        elif ended or not line.strip() or re.match(r"\s*(?:[-*] |[#|]|\d+\. )", line):
            prose.append((number, line))
            ended = not line.strip() or line[0] in "#|"
        else:
            prose[-1] = (prose[-1][0], f"{prose[-1][1]} {line.strip()}")
    return [(number, line.replace("\\|", "|")) for number, line in prose], blocks


def counted():
    """Each count with the pattern that states it, in any document."""
    edits = len(list(CRATES.glob("*/must-fail/*.edit")))
    yield r"[Tt]he (\d[\d,]*) crates", len(NAMES)
    yield r"(\d[\d,]*) wrong bodies", edits
    yield r"\b(\d[\d,]*) rows\b", None


def check_counts(texts):
    for pattern, count in counted():
        for file, text in texts.items():
            for found in re.finditer(pattern, text):
                number = text.count("\n", 0, found.start()) + 1
                if count is None:
                    yield f"{file}:{number}: {found.group(0)}: a count of rows is stale with the next row"
                elif int(found.group(1).replace(",", "")) != count:
                    yield f"{file}:{number}: {found.group(0)}: {count:,} by the repository"


def commands_in(line):
    """The commands that a line names; in a row of a table only those that fill their cell."""
    for found in COMMAND.finditer(line):
        before, after = line[: found.start()].rstrip(), line[found.end() :].lstrip()
        if not line.startswith("|") or (before.endswith("|") and after[:1] in ("|", ",")):
            yield found


def stated_times(texts):
    """Each time that a document gives soon after a command: its place, the command, the unit and seconds."""
    for file, text in texts.items():
        for number, line in halves(text)[0]:
            commands = list(commands_in(line))
            bare = re.sub(r"`[^`]*`", lambda code: " " * len(code.group(0)), line)
            for found in TIME.finditer(bare):
                before = [it.group(1) for it in commands if 0 < found.start() - it.end() < SOON]
                amount, cpu, unit, clock = found.groups()
                seconds = (WORDS.get(amount) or int(amount.replace(",", ""))) * SECONDS[unit]
                kind = "on the clock" if clock else "of the processor" if cpu else "in all"
                if before:
                    yield f"{file}:{number}", before[-1], kind, seconds


def crate_of(command):
    """The crate that a command proves from nothing with those below it, or None for all; False if it does neither."""
    found = re.fullmatch(r"rt ci(?: (\w+))?", command)
    if found:
        return found.group(1)
    found = re.match(r"\(?cd crates/(\w+) && rt (?:run|lib|check)\b", command)
    if found:
        return found.group(1)
    return "justfmt" if command == "rt run" else False


def check_times(texts):
    """A command has one time, and one that proves has the time that was measured, within a tenth."""
    _, times = measured()
    first = {}
    for place, command, kind, seconds in stated_times(texts):
        crate = crate_of(command)
        if crate is not False and kind == "of the processor":
            known = from_nothing(crate, times)
            if abs(seconds - known) > known / 10:
                yield f"{place}: `{command}` takes {seconds / 60:.0f} CPU minutes: {known / 60:.0f} by docs/times.txt"
            continue
        earlier, value = first.setdefault((command, kind), (place, seconds))
        if value != seconds:
            yield f"{place}: `{command}` takes {seconds:.0f} seconds {kind}, and {value:.0f} at {earlier}"


def check_neighbours():
    """The counts of files in the table of neighbours, by `git grep`, without rows of data."""
    text = (TOP / "docs/ARCHITECTURE.md").read_text()
    for name, stated in re.findall(r"^\| [^|]+ \| `(\w+)` \| (\d+) \|$", text, re.M):
        places = ["--", "crates", ":!crates/*/data/*"]
        listed = run(["git", "-C", TOP, "grep", "-lw", name, *places], capture_output=True, text=True).stdout
        if listed.count("\n") != int(stated):
            yield f"docs/ARCHITECTURE.md: {stated} files name {name}: {listed.count(chr(10))}"


def check_wrong_bodies():
    """Each wrong body is listed in CLAIMS."""
    text = (TOP / "docs/CLAIMS.md").read_text()
    for path in sorted(CRATES.glob("*/must-fail/*.edit")):
        if f"`{path.stem}`" not in text:
            yield f"docs/CLAIMS.md: the wrong body {path.stem} of {path.parts[-3]} is missing"


def check(texts, write):
    """What is wrong with the figures of these documents, by their names."""
    yield from written(write)
    yield from mapped(write)
    yield from check_counts(texts)
    yield from check_times(texts)
    yield from check_neighbours()
    yield from check_wrong_bodies()
