#!/usr/bin/env python3
"""Makes a module of the tests of justfile_c one that exports its C function alone: exported.py IN.ll OUT.ll [wasm64]

module.sh makes such a module. With `wasm64` it is made for that processor, whose pointers have eight bytes, too: the
layout of all data is as it was.
"""
import re
import sys

EXPORT = "justfile_format"
INSIDE = f'@"justfile_c::{EXPORT}"'
# What an attribute says of x86-64 alone.
OF_PROCESSOR = re.compile(
    r' "(?:target-cpu|target-features|tune-cpu|probe-stack|stack-protector[^"]*|stack-probe-size)"="[^"]*"'
    r"| uwtable(?:\([a-z]*\))?| sspstrong| sspreq| nonlazybind"
)


def kept_inside(line):
    """A definition that no other module sees."""
    line = line.replace(" dso_local", "").replace(" hidden", "")
    return line if line.startswith("define internal ") else line.replace("define ", "define internal ", 1)


def exported(line):
    """A line in which the C function has its name, and no other definition is seen."""
    line = line.replace(INSIDE, f"@{EXPORT}")
    if not line.startswith("define "):
        return line
    if f" @{EXPORT}(" in line:
        return line.replace("define internal ", "define ", 1)
    return kept_inside(line)


def for_wasm64(line):
    """A line without what is said of x86-64, or nothing."""
    if line.startswith("target datalayout"):
        return None
    if line.startswith("target triple"):
        return 'target triple = "wasm64-unknown-unknown"'
    return OF_PROCESSOR.sub("", line) if line.startswith("attributes ") else line


def main():
    source, target, *processor = sys.argv[1:]
    with open(source) as file:
        lines = [exported(line) for line in file.read().split("\n")]
    if not any(line.startswith("define ") and f" @{EXPORT}(" in line for line in lines):
        sys.exit(f"exported.py: {source} has no {INSIDE}")
    if processor == ["wasm64"]:
        lines = [it for it in map(for_wasm64, lines) if it is not None]
    with open(target, "w") as file:
        file.write("\n".join(lines))
    return 0


if __name__ == "__main__":
    sys.exit(main())
