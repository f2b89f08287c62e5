#!/usr/bin/env python3
"""What justfile_server answers, and how long it takes: answers.py PROGRAM

Formats a part of a text and a text of which two parts differ, asks for the places of a name with and without its
definition, for the types of tokens, for more completions than are told at once, and sends headers that are unusual or
wrong. Then asks about a line of 16,000 operands, makes 10,000 changes of 1 MB in one message, and asks for the links of
200 modules in a folder of 5,000 files. Prints a line for each part, with the milliseconds of a processor, and ends with
1 at the first difference.
"""
import os
import sys
import tempfile
from pathlib import Path

sys.dont_write_bytecode = True
from parts import spent  # noqa: E402
from realistic import justfile  # noqa: E402
from server import DOCUMENT, Server, check, edited, position  # noqa: E402

ABOUT = {"textDocument": {"uri": DOCUMENT}}
PARTS = "a:='b'\n\nc := a\n\nd:=c\n"
FORMATTED = "a := 'b'\n\nc := a\n\nd := c\n"
COLORED = "set quiet # on\nx := a + 'b'\nr p: x\n  {{p}}\n# last\n"
TOKENS = [
    ("set", "keyword"), ("quiet", "keyword"), ("# on", "comment"), ("x", "variable"), (":=", "operator"), ("a", "variable"),
    ("+", "operator"), ("'b'", "string"), ("r", "function"), ("p", "parameter"), ("x", "function"), ("p", "parameter"),
    ("# last", "comment"),
]
OPERANDS = 16_000
# The most milliseconds of a processor for an answer about a long line, and for many changes.
MOST_ANSWER = 20
MOST_CHANGES = 100


def range_of(text, part, encoding):
    """The range of a part of a text."""
    at = text.index(part)
    return {"start": position(text, at, encoding), "end": position(text, at + len(part), encoding)}


def format_parts(program, encoding):
    """Formats a part of a text, and all of one of which two parts differ."""
    server = Server(program, encoding)
    server.open(DOCUMENT, PARTS)
    found = server.ask("textDocument/rangeFormatting", ABOUT | {"range": range_of(PARTS, "d:=c", encoding), "options": {}})
    check(edited(PARTS, found["result"], encoding) == PARTS.replace("d:=c", "d := c"), f"of a part: {found}")
    found = server.ask("textDocument/formatting", ABOUT | {"options": {}})["result"]
    check(edited(PARTS, found, encoding) == FORMATTED, f"of all: {found}")
    lines = [(edit["range"]["start"]["line"], edit["range"]["end"]["line"]) for edit in found]
    check(len(lines) == 2 and all(end <= 2 or start > 2 for start, end in lines), f"what is between isn't kept: {lines}")
    check(server.end() == 0, "the status isn't 0")
    print(f"{encoding}: a part is formatted, and two parts by two edits")


def find_places(program, encoding):
    """Asks for the places of a name, with and without its definition."""
    server, text = Server(program, encoding), "a := 'é'\nb := a + a\n"
    server.open(DOCUMENT, text)
    for declared, wanted in ((True, [0, 1, 1]), (False, [1, 1])):
        found = server.ask("textDocument/references", ABOUT | {
            "position": position(text, 0, encoding), "context": {"includeDeclaration": declared},
        })["result"]
        check([place["range"]["start"]["line"] for place in found] == wanted, f"the places are {found}")
    check(server.end() == 0, "the status isn't 0")
    print(f"{encoding}: the places of a name, with its definition and without")


def color(program, encoding):
    """Asks for the types of tokens."""
    server = Server(program, encoding)
    legend = server.ask("initialize", {"capabilities": {}})
    check("error" in legend, "the server is initialized twice")
    server.open(DOCUMENT, COLORED)
    numbers = server.ask("textDocument/semanticTokens/full", ABOUT)["result"]["data"]
    names = "comment string operator keyword property function variable parameter".split()
    lines, found, line, column = COLORED.split("\n"), [], 0, 0
    for at in range(0, len(numbers), 5):
        down, right, length, kind, modifiers = numbers[at : at + 5]
        line, column = line + down, right if down else column + right
        found.append((lines[line][column : column + length], names[kind]))
        check(modifiers == 0, "a modifier")
    check(found == TOKENS, f"the tokens are {found}")
    check(server.end() == 0, "the status isn't 0")
    print(f"{encoding}: {len(found)} types of tokens")


def complete_many(program):
    """Asks for more completions than are told at once."""
    server = Server(program, "utf-8")
    text = "".join(f"name_{at:03} := ''\n" for at in range(400)) + "x := name_12\n"
    server.open(DOCUMENT, text)
    for column, wanted in ((5, 200), (12, 10)):
        found = server.ask("textDocument/completion", ABOUT | {"position": {"line": 400, "character": column}})["result"]
        labels = [item["label"] for item in found["items"]]
        check(found["isIncomplete"] and len(labels) == len(set(labels)) == wanted, f"{len(labels)} names")
    check(labels == [f"name_12{at}" for at in range(10)], f"the names are {labels}")
    check(server.end() == 0, "the status isn't 0")
    print("completions: no more than some at once, and told so")


def send_headers(program):
    """Sends headers that are unusual or wrong."""
    server = Server(program, "utf-8")
    asked = b'{"jsonrpc":"2.0","id":%d,"method":"nothing"}'
    headers = [
        b"Content-Length:%d\r\n\r\n", b"content-length: %d \r\n\r\n", b"Content-Type: a; charset=utf-8\r\nCONTENT-LENGTH: %d\r\n\r\n",
    ]
    for number, header in enumerate(headers, 100):
        body = asked % number
        server.process.stdin.write(header % len(body) + body)
        server.process.stdin.flush()
        found = server.read()
        check(found.get("id") == number and found["error"]["code"] == -32601, f"{header} is answered by {found}")
    body = asked % 7
    server.process.stdin.write(b"Content-Length: %d\r\n\r\n%s" % (len(body) - 5, body))
    server.process.stdin.flush()
    check(server.read()["error"]["code"] == -32700, "a length that is too short")
    body = asked % 8
    server.process.stdin.write(b"\r\nContent-Length: %d\r\n\r\n%s" % (len(body), body))
    server.process.stdin.flush()
    found = server.read()
    while found.get("id") != 8:
        check(found["error"]["code"] in (-32600, -32700), f"after a length that is too short: {found}")
        found = server.read()
    check(server.end() == 0, "the status isn't 0")
    print(f"{len(headers) + 1} unusual or wrong headers")


def timed(server, work):
    """The milliseconds of a processor that some work takes the server."""
    before = spent(server)
    work()
    return (spent(server) - before) * 1000


def ask_about_line(program):
    """Asks about a line of many operands."""
    server = Server(program, "utf-16")
    text = "a := 'b'\nx := " + " + ".join(["a"] * OPERANDS) + "\n"
    server.open(DOCUMENT, text)
    place = {"position": {"line": 1, "character": 5 + 4 * (OPERANDS // 2)}}
    whole = {"range": {"start": {"line": 0, "character": 0}, "end": {"line": 2, "character": 0}}}
    asked = {
        "documentSymbol": {}, "foldingRange": {}, "documentLink": {}, "codeLens": {}, "semanticTokens/full": {},
        "formatting": {"options": {}}, "rangeFormatting": whole | {"options": {}}, "codeAction": whole | {"context": {"diagnostics": []}},
        "definition": place, "documentHighlight": place, "hover": place, "completion": place, "signatureHelp": place,
        "prepareRename": place, "references": place | {"context": {"includeDeclaration": True}}, "rename": place | {"newName": "c"},
    }
    times = {}
    for query, parameters in asked.items():
        answers = []
        times[query] = timed(server, lambda: answers.append(server.ask("textDocument/" + query, ABOUT | parameters)))
        check("result" in answers[0], f"{query}: {str(answers[0])[:200]}")
    check(server.end() == 0, "the status isn't 0")
    print(f"a line of {OPERANDS} operands, ms: " + ", ".join(f"{query} {time:.1f}" for query, time in times.items()))
    return [f"{query} takes {time:.1f} ms" for query, time in times.items() if time > MOST_ANSWER]


def change_often(program):
    """Makes many changes in one message."""
    server, text = Server(program, "utf-8"), justfile(1_000_000)
    server.open(DOCUMENT, text)
    count = text.count("\n")
    lines = [at * 97 % count for at in range(10_000)]
    changes = [{"range": {"start": {"line": at, "character": 0}, "end": {"line": at, "character": 0}}, "text": "#"} for at in lines]
    time = timed(server, lambda: server.change(DOCUMENT, changes))
    print(f"10,000 changes of 1 MB in one message: {time:.1f} ms")
    check(server.end() == 0, "the status isn't 0")
    return [f"10,000 changes take {time:.1f} ms"] if time > MOST_CHANGES else []


def link_many(program):
    """Asks for the links of many modules in a folder with many files."""
    with tempfile.TemporaryDirectory() as folder:
        for at in range(5_000):
            (Path(folder) / f"file_{at}").touch()
        for at in range(200):
            (Path(folder) / f"m{at}.just").touch()
        uri = (Path(folder) / "justfile").as_uri()
        server = Server(program, "utf-8")
        server.open(uri, "".join(f"mod m{at}\n" for at in range(200)))
        answers = []
        time = timed(server, lambda: answers.append(server.ask("textDocument/documentLink", {"textDocument": {"uri": uri}})["result"]))
        check(len(answers[0]) == 200, f"{len(answers[0])} links")
        check(server.end() == 0, "the status isn't 0")
    print(f"200 modules beside 5,000 files: {time:.1f} ms")


def main():
    program = os.path.abspath(sys.argv[1])
    for encoding in ("utf-8", "utf-16"):
        format_parts(program, encoding)
        find_places(program, encoding)
        color(program, encoding)
    complete_many(program)
    send_headers(program)
    slow = ask_about_line(program) + change_often(program)
    link_many(program)
    print("\n".join(slow), end="\n" if slow else "")
    sys.exit(1 if slow else 0)


if __name__ == "__main__":
    main()
