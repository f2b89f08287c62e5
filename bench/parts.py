#!/usr/bin/env python3
"""What justfile_server does with texts that are wrong: parts.py PROGRAM [COUNT]

Breaks COUNT texts (2,000 unless given) as survey.py does, and prints in how many the server keeps all named items but
the one with the broken byte. Then opens texts with an error on each of thousands of lines, at twice and four times the
length, too, and types at the top, in the middle and at the end of long texts, with the milliseconds of a processor for
a key, also where something isn't closed at the top. Ends with 1 if fewer items are kept than there should be, if twice
the length takes more than three times as long, or if most keys take as long as opening the text.
"""
import os
import random
import sys

sys.dont_write_bytecode = True
from server import DOCUMENT, Server  # noqa: E402
from survey import LEAST_KEPT, broken, others_kept, texts_of_rows  # noqa: E402

TYPED = "new_item a b: recipe_1\n    echo {{a}} 'x' \"y\"\n\nz := `(a + [b"
RECIPE = """# builds target {0}
[group('g')]
recipe_{0} arg{0}='x' *rest:
    echo {{{{arg{0}}}}} building {0}
    cargo build --release --target {{{{variable_{0}}}}}

variable_{0} := "value " + 'x{0}' / env('HOME', "none")

"""
HOSTILE = {
    "open brackets": "a := (\n",
    "open sums": "a := (b +\n",
    "continued sums": "b +\n",
    "open lists": "a := [b,\n",
    "open quotes": "a := 'b\n",
    "open tripled quotes": "a := '''b\n",
    "two kinds of quotes": "a := '''b\"\"\"\nc := \"\"\"d'''\n",
    "open backticks": "a := `b\n",
    "open interpolations": "a:\n  {{b\n",
    "open format strings": "a := f'{b\n",
    "open attributes": "[a(\nb:\n",
    "attributes": "[private]\n",
    "half attributes": "[group('a\n",
    "comments": "# a\n",
    "continued lines": "a \\\n",
    "sums in interpolations": "a:\n  {{\nb +\nb }}\n",
    "open quotes in turn": "a := 'b\nc := \"d\n",
    "sums of quotes": "a := 'b' + 'c\n",
    "tripled quotes in turn": "a := \"\"\"b\nc := '''d\n",
    "mismatched brackets": "a := (]\n",
    "settings": "set shell := ['a'\n",
    "modules": "mod m 'a\n",
    "recipes that are open": "a: (b\n",
    "recipes and brackets": "a := (\nb: c\n  echo {{d}}\n",
}

# what is right however many lines it has
RIGHT = [
    "a b:\n {{\n" + "b +\n" * 100 + "b }}\n",
    "a := '''\n" + "b := \"c\"\n" * 100 + "'''\n",
    "a := (\n" + "'b' +\n" * 100 + "'b')\n",
]
OPENERS = [
    'x := "', "x := '", "x := `", 'x := """', "x := '''", "x := ```", "x := (", "x := [", "x := y + \\", "x := f'{{",
    "a:\n  {{", "[group('", "a b='", "set shell := [",
]


def items_of(server, text):
    """The items of the text, as (start, end, kind, name)."""
    starts = [0]
    for line in text.split("\n"):
        starts.append(starts[-1] + len(line) + 1)

    def offset(place):
        return starts[place["line"]] + place["character"]

    found = server.ask("textDocument/documentSymbol", {"textDocument": {"uri": DOCUMENT}})["result"]
    return [(offset(it["range"]["start"]), offset(it["range"]["end"]), it["kind"], it["name"]) for it in found]


def asked(server, text):
    """The items of a text, and whether there is an error."""
    wrong = any("code" not in told for told in server.open(DOCUMENT, text))
    items = items_of(server, text)
    server.close(DOCUMENT)
    return items, wrong


def break_rows(program, count):
    """Breaks texts of the rows. Returns whether enough is kept."""
    server, chance = Server(program, "utf-8"), random.Random(1)
    accepted = []
    for text in texts_of_rows():
        items, wrong = asked(server, text)
        if not wrong and len(items) >= 2:
            accepted.append((text, items))
    tried = whole = kept = total = 0
    while tried < count:
        text, items = chance.choice(accepted)
        changed, at = broken(text, chance)
        after, wrong = asked(server, changed)
        if not wrong:
            continue
        tried += 1
        k, t = others_kept(items, after, at)
        whole += k == t
        kept += k
        total += t
    print(f"{len(accepted)} texts, {tried} broken ones: {whole} ({100 * whole / tried:.1f} %) keep all other named items,"
          f" {kept} of {total} items")
    return 100 * whole >= LEAST_KEPT * tried


def told_right(program):
    """Whether right texts are told right."""
    server = Server(program, "utf-8")
    told = [text for text in RIGHT if asked(server, text)[1]]
    print("\n".join(f"right, and told wrong: {text[:40]!r} .." for text in told), end="\n" if told else "")
    server.process.kill()
    return not told


def spent(server):
    """The seconds of a processor that a server has taken."""
    with open(f"/proc/{server.process.pid}/schedstat", encoding="ascii") as file:
        return int(file.read().split()[0]) / 1e9


def hostile(program):
    """Opens texts with errors on all lines. Returns whether the time grows with the length."""
    fine = True
    for kind, lines in HOSTILE.items():
        times = []
        for count in (5_000, 10_000, 20_000):
            server = Server(program, "utf-8")
            before = spent(server)
            server.open(DOCUMENT, lines * count)
            times.append(spent(server) - before)
            server.process.kill()
        print(f"{kind}: {times[0]:.3f} s, at twice the length {times[1]:.3f} s, at four times {times[2]:.3f} s")
        fine = fine and times[1] < 3 * times[0] + 0.05 and times[2] < 3 * times[1] + 0.05
    return fine


def type_letters(server, letters, line, column, version):
    """Types letters at a place. Returns the milliseconds of each key, how many left an error or a finding, and the
    version after them."""
    times, wrong = [], 0
    for letter in letters:
        version += 1
        at = {"line": line, "character": column}
        before = spent(server)
        server.tell("textDocument/didChange", {
            "textDocument": {"uri": DOCUMENT, "version": version},
            "contentChanges": [{"range": {"start": at, "end": at}, "text": letter}],
        })
        wrong += bool(server.diagnostics(DOCUMENT, version))
        times.append((spent(server) - before) * 1000)
        line, column = (line + 1, 0) if letter == "\n" else (line, column + 1)
    return times, wrong, version


def realistic(size):
    """A text of recipes and variables of this size."""
    return "".join(RECIPE.format(at) for at in range(size // len(RECIPE) + 1))


def typed(program, size):
    """Types at three places of a text of this size."""
    text = realistic(size)
    lines = text.count("\n")
    for place, line in (("top", 0), ("middle", lines // 2 // 8 * 8), ("end", lines)):
        server = Server(program, "utf-8")
        server.open(DOCUMENT, text)
        first, wrong, version = type_letters(server, "\n", line, 0, 1)
        times, others, version = type_letters(server, TYPED, line, 0, version)
        times = sorted(first + times)
        print(f"{size} bytes, {place}: {len(times)} keys, {wrong + others} of them leave an error or a finding; "
              f"ms a key: median {times[len(times) // 2]:.2f}, most {times[-1]:.2f}")
        server.process.kill()


def opened(program, size):
    """Types at the top of a text of this size and far below, where something isn't closed at the top. Returns whether
    a key takes less than opening the text."""
    fine = True
    for opener in OPENERS:
        text = opener + "\n\n" + realistic(size)
        server = Server(program, "utf-8")
        before = spent(server)
        server.open(DOCUMENT, text)
        whole = (spent(server) - before) * 1000
        top, _, version = type_letters(server, "abc", opener.count("\n"), len(opener.rpartition("\n")[2]), 1)
        below, _, _ = type_letters(server, "\nabc", text.count("\n"), 0, version)
        print(f"{size} bytes after {opener!r}: opened in {whole:.1f} ms; ms a key: {max(top):.2f} at the top, "
              f"{max(below):.2f} far below")
        fine = fine and sorted(top + below)[3] < whole
        server.process.kill()
    return fine


def main():
    program = os.path.abspath(sys.argv[1])
    passed = [
        told_right(program), break_rows(program, int(sys.argv[2]) if len(sys.argv) > 2 else 2000), hostile(program),
    ]
    for size in (10_000, 100_000, 1_000_000):
        typed(program, size)
    passed += [opened(program, size) for size in (100_000, 1_000_000)]
    sys.exit(0 if all(passed) else 1)


if __name__ == "__main__":
    main()
