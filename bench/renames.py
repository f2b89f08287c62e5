#!/usr/bin/env python3
"""Renames at random: renames.py PROGRAM [COUNT [SEED]].

PROGRAM is justfile_server, built. Opens the texts of the rows of crates/justfile_rows that have no error and mention a
defined name, and asks for COUNT renames (2,000 unless given) of a random name of a random text: to a fresh name, to a
name of the text, to a constant, to a keyword, to a mark before a string, or to what is no name. Each is refused with a
reason, or else the text after it has no error, is renamed back to the old text, and has in the places of the old
mentions those with the new name. To a fresh name only those are refused of a variable that has a constant's name, and
of a parameter that an attribute `arg` names by escapes. Prints how many were done and how many refused, by the kind of
the new name. Ends with 1 at the first that isn't as it should be.
"""
import glob
import random
import re
import sys
from collections import Counter

from server import Server, check, edited, offset
from survey import ROWS, unescaped

CONSTANTS = ["HEX", "RED", "PATH_SEP"]
KEYWORDS = ["if", "else", "assert", "set", "mod", "import", "alias", "export", "unexport", "eager"]
MARKS = ["f", "x"]
# An attribute `arg` whose literal has an escape.
ESCAPED = re.compile(r'\barg\(\s*x?"[^"]*\\')
NO_NAMES = ["", "1a", "a b", "a.b", "é", "a:=b", "-a"]


def texts():
    """Returns the texts of the rows."""
    found = set()
    for path in sorted(glob.glob(ROWS)):
        with open(path, encoding="utf-8") as file:
            found.update(unescaped(field) for field in re.findall(r"«([^»]*)»", file.read()))
    return sorted(text for text in found if text and len(text) < 2000)


class Editor:
    """A server, and one document that is opened anew for each text."""

    def __init__(self, program):
        self.server = Server(program, "utf-16")
        self.count = 0

    def open(self, text):
        """Opens a document with a text. Returns its address, and whether it has no error."""
        self.count += 1
        uri = f"file:///work/{self.count}/justfile"
        return uri, self.server.open(uri, text) == []

    def ask(self, uri, method, place, **more):
        """Returns the result of a request about a place, or nothing if it is refused with a reason."""
        answer = self.server.ask("textDocument/" + method, dict(more, textDocument={"uri": uri}, position=place))
        if "error" in answer:
            check(answer["error"]["code"] in (-32602, -32803) and answer["error"]["message"], f"{method} fails: {answer}")
            return None
        return answer["result"]

    def places(self, uri, place):
        """Returns the places of the name at a place."""
        return [it["range"] for it in self.ask(uri, "references", place, context={"includeDeclaration": True})]

    def names(self, uri, text):
        """Returns each defined name of a text, and a place of it."""
        names = {}
        for word in re.finditer(r"[A-Za-z_][A-Za-z0-9_-]*", text):
            place = position(text, word.start())
            if self.ask(uri, "prepareRename", place):
                names.setdefault(str(self.places(uri, place)), (word[0], place))
        return list(names.values())


def position(text, at):
    """Returns the position of an offset in characters."""
    before = text[:at]
    return {"line": before.count("\n"), "character": len(before[before.rfind("\n") + 1 :].encode("utf-16-le")) // 2}


def written(text, places):
    """Returns what is at places of a text."""
    return [text[offset(text, it["start"], "utf-16") : offset(text, it["end"], "utf-16")] for it in places]


def new_name(chance, names):
    """Returns a new name, and of what kind it is."""
    kind = chance.choice(["fresh", "fresh", "of the text", "constant", "keyword", "mark", "no name"])
    own = [name for name, _ in names]
    other = {"fresh": ["fresh_name"], "of the text": own, "constant": CONSTANTS, "keyword": KEYWORDS, "mark": MARKS, "no name": NO_NAMES}[kind]
    return chance.choice(other), kind


def rename(editor, uri, text, old, place, new):
    """Renames a name. Returns whether it wasn't refused; then all is as it should be."""
    before = editor.places(uri, place)
    answer = editor.ask(uri, "rename", place, newName=new)
    if answer is None:
        return False
    edits = answer["changes"][uri]
    old = written(text, before)[0]
    check([edit["range"] for edit in edits] == before, f"{old} to {new}: other places are edited than mentioned: {text!r}")
    after = edited(text, edits, "utf-16")
    there, right = editor.open(after)
    check(right, f"{old} to {new} makes an error: {text!r} to {after!r}")
    first = moved(text, after, edits, place)
    again = editor.places(there, first)
    check(len(again) == len(before) and all(name == new for name in written(after, again)), f"{old} to {new}: {written(after, again)}: {after!r}")
    back = editor.ask(there, "rename", first, newName=old)
    check(back is not None, f"{new} can't be renamed back to {old}: {after!r}")
    check(edited(after, back["changes"][there], "utf-16") == text, f"{old} to {new} and back isn't the old text: {text!r}")
    return True


def moved(text, after, edits, place):
    """Returns where a place of a text that is edited is in the text after the edits."""
    at = offset(text, place, "utf-16")
    ends = [(offset(text, it["range"]["start"], "utf-16"), offset(text, it["range"]["end"], "utf-16"), len(it["newText"])) for it in edits]
    return position(after, at + sum(length - (end - start) for start, end, length in ends if end <= at))


def main():
    program = sys.argv[1]
    count = int(sys.argv[2]) if len(sys.argv) > 2 else 2000
    chance = random.Random(int(sys.argv[3]) if len(sys.argv) > 3 else 1)
    editor = Editor(program)
    known = []
    for text in texts():
        uri, right = editor.open(text)
        names = editor.names(uri, text) if right else []
        if names:
            known.append((uri, text, names))
    done, refused = Counter(), Counter()
    for _ in range(count):
        uri, text, names = chance.choice(known)
        old, place = chance.choice(names)
        new, kind = new_name(chance, names)
        if rename(editor, uri, text, old, place, new):
            check(kind != "no name", f"{old} was renamed to {new!r}: {text!r}")
            done[kind] += 1
        else:
            check(kind != "fresh" or new in text or old in CONSTANTS or ESCAPED.search(text), f"{old} can't be renamed to {new}: {text!r}")
            refused[kind] += 1
    check(editor.server.end() == 0, "the status isn't 0")
    for kind in sorted(done | refused):
        print(f"new names, {kind}: {done[kind]} renames are right and undone, {refused[kind]} refused")
    print(f"{count} renames in {len(known)} texts")


if __name__ == "__main__":
    main()
