#!/usr/bin/env python3
"""Compares what C, Python, Node and a page tell of texts with what justfmt does: outside.py JUSTFMT LIBRARY WEB WORK

JUSTFMT is the program, LIBRARY what library.sh made, WEB what web.sh made, and WORK an empty folder. The texts are those
of the rows of justfmt and of its files of examples, and 1,000 that are made of these by small changes, always the same.
Each answer must have justfmt's status, and its bytes: those of standard output, or of standard error if the status isn't
0. Prints a line for each caller, which tells if it was skipped; ends with 1 if an answer differs.
"""
import base64
import json
import random
import re
import shutil
import subprocess
import sys
import threading
from concurrent.futures import ThreadPoolExecutor
from functools import partial
from http.server import SimpleHTTPRequestHandler, ThreadingHTTPServer
from pathlib import Path

TOP = Path(__file__).resolve().parent.parent
MADE = 1_000
SHOWN = 5
PATIENCE = 900
ESCAPES = {"n": "\n", "r": "\r", "t": "\t", "\\": "\\"}


def unescaped(text):
    """A text as rows have it between « and »."""
    def of(found):
        if found[1]:
            return chr(int(found[1], 16))
        return found[3] * int(found[2]) if found[2] else ESCAPES.get(found[4], "")
    return re.sub(r"\\(?:u\{(\w+)\}|(\d+)‹(.*?)›|\n\s*|(.))", of, text, flags=re.S)


def of_rows():
    """The inputs of the rows of justfmt."""
    rows = (TOP / "crates/justfile_rows/data/program.rows").read_text()
    for word, fields in re.findall(r"^(formats|run)\b(.*(?:\n[ \t].*)*)", rows, re.M):
        texts = re.findall(r"«([^«»]*)»|(\S+)", fields)
        field = texts[0] if word == "formats" else texts[1]
        yield unescaped(field[0] or field[1]).encode()


def changed(text, others, chance):
    """A text with a few of its lines or bytes left out, doubled, or replaced by those of another text."""
    parts = text.splitlines(keepends=True) if chance.random() < 0.5 else [bytes([it]) for it in text]
    for _ in range(chance.randint(1, 4)):
        at = chance.randrange(len(parts) + 1)
        other = chance.choice(others).splitlines(keepends=True) or [b" "]
        parts[at:at + chance.randint(0, 2)] = chance.choice([[], parts[at:at + 1] * 2, [chance.choice(other)]])
    return b"".join(parts)


def texts():
    """All texts, each once."""
    found = [*of_rows(), *(it.read_bytes() for it in sorted(TOP.glob("examples/*.just"))), b"\xff", b"a := '\xc3'"]
    chance = random.Random(1)
    short = [it for it in found if len(it) < 5_000]
    return [*dict.fromkeys(found), *(changed(chance.choice(short), short, chance) for _ in range(MADE))]


def run(program, text):
    """The status of a program and the bytes that it writes."""
    it = subprocess.run([program], input=text, capture_output=True)
    return it.returncode, it.stderr if it.returncode else it.stdout


def of_processes(program, inputs):
    with ThreadPoolExecutor() as pool:
        return list(pool.map(partial(run, program), inputs))


def by_c(library, work, inputs):
    program = work / "example"
    subprocess.run(["cc", "-O2", "-I", library, TOP / "library/example.c", library / "libjustfile.a", "-o", program],
                   check=True)
    return of_processes(program, inputs)


def by_python(library, inputs):
    sys.path.insert(0, str(library))
    import justfile
    format = justfile.load(str(library / "libjustfile.so"))
    return [(it.status, it.text) for it in map(format, inputs)]


def read(answers):
    return [None if it is None else (it[0], base64.b64decode(it[1])) for it in answers]


def by_node(web, work):
    command = ["node", TOP / "tools/outside.mjs", web, work / "texts.json"]
    return read(json.loads(subprocess.run(command, capture_output=True, check=True).stdout))


class Pages(SimpleHTTPRequestHandler):
    """Serves the page and what tries it, and takes what that tells."""

    found, told = None, threading.Event()

    def do_POST(self):
        Pages.found = json.loads(self.rfile.read(int(self.headers["Content-Length"])))
        self.send_response(204)
        self.end_headers()
        Pages.told.set()

    def log_message(self, *_):
        pass


def by_page(chromium, web, work):
    """What the loader tells in a browser, and what the page shows: None for a text that its field can't hold."""
    site = work / "site"
    shutil.copytree(web, site)
    for name in ("outside.html", "outside_page.mjs"):
        shutil.copy(TOP / "tools" / name, site)
    shutil.copy(work / "texts.json", site)
    with ThreadingHTTPServer(("127.0.0.1", 0), partial(Pages, directory=site)) as server:
        threading.Thread(target=server.serve_forever, daemon=True).start()
        address = f"http://127.0.0.1:{server.server_port}/outside.html"
        flags = ["--headless", "--no-sandbox", "--disable-gpu", f"--user-data-dir={work}/profile"]
        browser = subprocess.Popen([chromium, *flags, "--remote-debugging-port=0", address],
                                   stdout=subprocess.DEVNULL, stderr=subprocess.DEVNULL)
        Pages.told.wait(PATIENCE)
        browser.terminate()
        browser.wait()
        server.shutdown()
    if not isinstance(Pages.found, dict):
        sys.exit(f"outside.py: the page told {Pages.found}")
    return read(Pages.found["loader"]), read(Pages.found["page"])


def compare(caller, answers, wanted, inputs):
    """Tells how many answers are justfmt's, and shows the first that aren't. Answers whether all are."""
    pairs = [(it, to, text) for it, to, text in zip(answers, wanted, inputs) if it is not None]
    bad = [pair for pair in pairs if pair[0] != pair[1]]
    print(f"{caller}: {len(pairs) - len(bad)} of {len(pairs)} texts as justfmt")
    for found, to, text in bad[:SHOWN]:
        print(f"  {text[:200]!r}: {found}, and not {to}")
    return not bad and len(answers) == len(wanted) and bool(pairs)


def main():
    justfmt, library, web, work = (Path(it).resolve() for it in sys.argv[1:])
    inputs = texts()
    (work / "texts.json").write_text(json.dumps([base64.b64encode(it).decode() for it in inputs]))
    wanted = of_processes(justfmt, inputs)
    refused = sum(1 for status, _ in wanted if status)
    print(f"{len(inputs)} texts, of which justfmt refuses {refused}")
    good = [compare("Python", by_python(library, inputs), wanted, inputs)]
    if shutil.which("cc"):
        good.append(compare("C", by_c(library, work, inputs), wanted, inputs))
    else:
        print("C: skipped, since there is no cc")
    if shutil.which("node"):
        good.append(compare("Node", by_node(web, work), wanted, inputs))
    else:
        print("Node: skipped, since there is no node")
    if chromium := shutil.which("chromium") or shutil.which("chromium-browser"):
        loader, page = by_page(chromium, web, work)
        good.append(compare("Chromium", loader, wanted, inputs))
        # The page shows a text without the line feed at its end.
        ends = [(status, text.removesuffix(b"\n")) for status, text in wanted]
        good.append(compare("the page in Chromium", page, ends, inputs))
    else:
        print("the page: skipped, since there is no chromium")
    return 0 if all(good) else 1


if __name__ == "__main__":
    sys.exit(main())
