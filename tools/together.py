#!/usr/bin/env python3
"""Puts programs into one module, and takes them apart again, for build_unproved.sh.

`together.py sources COPY PROGRAM..` copies the sources to COPY. There each program is a library, whose function
`program` is what was its `main`, and the crate `programs` reaches them all.

`together.py module MODULE.ll PROGRAM..` lets the linker choose one: in the module of the crate `programs` its `main` is
declared alone, and beside the module a file PROGRAM.ll for each program has a `main` that calls it.
"""
import re
import shutil
import sys
from pathlib import Path

TOP = Path(__file__).resolve().parent.parent
MAIN = re.compile(r'^define internal (noundef i8 @"programs::main"\(\)).*?^\}\n', re.S | re.M)
START = """target triple = "x86_64-unknown-linux-gnu"

declare i8 @"{0}::program"()

define i8 @"programs::main"() {{
  %status = tail call i8 @"{0}::program"()
  ret i8 %status
}}
"""


def make_library(crate):
    """Makes a library of a program."""
    source = (crate / "src/main.rt").read_text()
    if source.count("\nfn main(rt: HostRuntime) -> ExitCode {") != 1:
        sys.exit(f"together.py: {crate.name} has no main that returns an ExitCode")
    (crate / "src/main.rt").unlink()
    (crate / "src/lib.rt").write_text(source.replace("\nfn main(", "\npub fn program("))


def sources(copy, programs):
    for name in ("crates", "tools"):
        shutil.copytree(TOP / name, copy / name, ignore=shutil.ignore_patterns("out"))
    for program in programs:
        make_library(copy / "crates" / program)
    named = (TOP / "crates.txt").read_text()
    (copy / "crates.txt").write_text(f"{named}programs: {' '.join(programs)}\n")
    calls = "".join(f"        {number} => {program}::program(rt),\n" for number, program in enumerate(programs[1:]))
    folder = copy / "crates/programs/src"
    folder.mkdir(parents=True)
    (folder / "main.rt").write_text(
        "#![tactic(auto)]\n\nuse std::env;\nuse std::process::ExitCode;\n\n"
        "fn main(rt: HostRuntime) -> ExitCode {\n"
        "    let count = match env::args(&rt) {\n        Ok(all) => all.count(),\n        Err(_) => 0,\n    };\n"
        f"    match count {{\n{calls}        _ => {programs[0]}::program(rt),\n    }}\n}}\n"
    )


def module(file, programs):
    text, found = MAIN.subn(r"declare \1\n", file.read_text())
    for program in programs:
        internal = f'define internal noundef i8 @"{program}::program"()'
        found += text.count(internal)
        text = text.replace(internal, internal.replace(" internal", ""))
        (file.parent / f"{program}.ll").write_text(START.format(program))
    if found != 1 + len(programs):
        sys.exit("together.py: the module has another form than this script knows")
    file.write_text(text)


def main():
    what, place, *programs = sys.argv[1:]
    {"sources": sources, "module": module}[what](Path(place), programs)


if __name__ == "__main__":
    main()
