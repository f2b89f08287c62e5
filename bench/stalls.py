#!/usr/bin/env python3
"""Measures what could make justfile_server stall: stalls.py PROGRAM [SECONDS].

Sends 10,000 changes of a text of 1 MB in one message, in several orders, and justfiles of one line with many findings.
Prints the seconds of a processor that each takes, less those of opening the text, and ends with 1 if one takes more
than SECONDS, or if the text after the changes isn't the one that it should be.
"""
import json
import random
import resource
import subprocess
import sys

DOCUMENT = "file:///work/justfile"
COUNT = 10_000
LINES = 25_000


def run(program, messages):
    """Sends messages. Returns what is answered, and the seconds of a processor."""
    bodies = [json.dumps(message).encode() for message in messages]
    before = resource.getrusage(resource.RUSAGE_CHILDREN)
    stream = b"".join(b"Content-Length: %d\r\n\r\n%s" % (len(body), body) for body in bodies)
    said = subprocess.run([program], input=stream, capture_output=True, timeout=600).stdout
    after = resource.getrusage(resource.RUSAGE_CHILDREN)
    return said, after.ru_utime + after.ru_stime - before.ru_utime - before.ru_stime


def opening(text):
    """Returns the messages that open a document."""
    document = {"uri": DOCUMENT, "languageId": "just", "version": 1, "text": text}
    return [
        {"jsonrpc": "2.0", "id": 1, "method": "initialize", "params": {"capabilities": {}}},
        {"jsonrpc": "2.0", "method": "textDocument/didOpen", "params": {"textDocument": document}},
    ]


def change(line, column, end_line, end_column, new):
    """Returns a change of a range."""
    return {"range": {"start": {"line": line, "character": column}, "end": {"line": end_line, "character": end_column}}, "text": new}


def orders(chance):
    """Returns changes of a text of lines by order, and the letters after the first one of each line after them."""
    places = [at * LINES // COUNT for at in range(COUNT)]
    anywhere = [chance.randrange(LINES) for _ in range(COUNT)]
    for name, chosen in (("forwards", places), ("backwards", places[::-1]), ("anywhere", anywhere)):
        after = [""] * LINES
        for line in chosen:
            after[line] += "y"
        yield name, [change(line, 1, line, 1, "y") for line in chosen], after
    after = ["y" * COUNT] + [""] * (LINES - 1)
    yield "at the start", [change(0, 1, 0, 1, "y")] * COUNT, after
    yield "in a line", [change(0, 1 + at, 0, 1 + at, "y") for at in range(COUNT)], after
    yield "of whole lines", [change(at % 1000, 1, at % 1000 + 1, 1, "") for at in range(COUNT)], [""] * (LINES - COUNT)


def after_changes(text, changes):
    """Returns the messages that change a text."""
    params = {"textDocument": {"uri": DOCUMENT, "version": 2}, "contentChanges": changes}
    return opening(text) + [{"jsonrpc": "2.0", "method": "textDocument/didChange", "params": params}]


def names_after(program, changes):
    """Returns the names of assignments after changes."""
    asked = {"jsonrpc": "2.0", "id": 2, "method": "textDocument/documentSymbol", "params": {"textDocument": {"uri": DOCUMENT}}}
    said, _ = run(program, after_changes(("x := '" + "x" * 33 + "'\n") * LINES, changes) + [asked])
    body = said.rsplit(b"\r\n\r\n", 1)[1]
    return [symbol["name"] for symbol in json.loads(body)["result"]]


def main():
    program = sys.argv[1]
    most = float(sys.argv[2]) if len(sys.argv) > 2 else 0.1
    text = ("# " + "x" * 37 + "\n") * LINES
    status = 0
    base = min(run(program, opening(text))[1] for _ in range(3))
    for name, changes, after in orders(random.Random(1)):
        seconds = run(program, after_changes(text, changes))[1] - base
        print(f"{COUNT} changes {name}: {seconds:.3f} s", flush=True)
        status |= seconds > most
        if names_after(program, changes) != ["x" + letters for letters in after]:
            print(f"{name}: another text", file=sys.stderr)
            status = 1
    justfiles = {
        "unknown names": "x := " + "+".join(["a"] * 60_000) + "\n",
        "unknown recipes": "x: " + " ".join(["a"] * 60_000) + "\n",
        "parameters after a long default": "x b='" + "é" * 30_000 + "' " + " ".join(["a"] * 30_000) + ":\n",
    }
    for name, justfile in justfiles.items():
        said, seconds = run(program, opening(justfile))
        print(f"{name}: {seconds:.3f} s, {len(said)} bytes")
        status |= seconds > 5 * most
    sys.exit(status)


if __name__ == "__main__":
    main()
