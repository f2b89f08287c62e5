#!/usr/bin/env python3
"""Runs the gate and writes what it took to docs/times.txt: measure.py [--to FILE] [COMMAND..]

COMMAND is `rt ci` if there is none. Run it from nothing, on a clean checkout and a machine that does nothing else, and
then `tools/documents.py --write`, which writes the table of docs/PERFORMANCE.md.

The processes below the command are looked at twice a second. A crate's part is its proof, its tests with the runs of
its program, or its wrong bodies: its seconds of the processor are those of its processes, and its seconds on the clock
those in which one of them ran. What `rt` itself takes, and processes too short to be seen, belong to no crate; the last
line that is printed says how much that is.
"""
import os
import re
import resource
import subprocess
import sys
import time
from pathlib import Path

sys.dont_write_bytecode = True
from sizes import NAMES, PARTS, TIMES  # noqa: E402

PAUSE = 0.5
TICKS = os.sysconf("SC_CLK_TCK")


def processes():
    """Each process by its number: its parent, its start, its ticks, its words and its folder."""
    found = {}
    for path in Path("/proc").glob("[0-9]*"):
        try:
            fields = (path / "stat").read_text().rpartition(")")[2].split()
            words = (path / "cmdline").read_bytes().decode(errors="replace").split("\0")
            folder = os.readlink(path / "cwd")
        except (OSError, IndexError):
            continue
        found[int(path.name)] = (int(fields[1]), int(fields[19]), int(fields[11]) + int(fields[12]), words, folder)
    return found


def below(root, found):
    """The processes below one, each after its parent."""
    children, order = {}, [root]
    for number, (parent, *_) in found.items():
        children.setdefault(parent, []).append(number)
    for number in order:
        order.extend(children.get(number, []))
    return order[1:]


def part_of(words, folder, parent):
    """The crate and the part that a process works for; by default those of its parent."""
    crate, part = parent
    named = re.search(r"--crate-name (\w+)", " ".join(words)) or re.search(r"/crates/(\w+)", folder)
    if named and named.group(1) in NAMES:
        crate, part = named.group(1), "proof"
    is_program = "/out/" in words[0] or folder.endswith("/data")
    if "--test" in words or words[0].endswith("rattle-test") or is_program:
        part = "tests"
    if "rt-edit" in folder:
        part = "wrong bodies"
    return crate, part


def watch(command):
    """Runs a command: the seconds on the clock and of the processor of each crate's parts."""
    ticks, clock, parts = {}, {}, {}
    child = subprocess.Popen(command)
    while child.poll() is None:
        found, running = processes(), set()
        for number in below(child.pid, found):
            parent, start, used, words, folder = found[number]
            at = parts[number] = part_of(words, folder, parts.get(parent, (None, None)))
            ticks[number, start] = (at, used)
            running.add(at)
        for at in running:
            clock[at] = clock.get(at, 0) + PAUSE
        time.sleep(PAUSE)
    cpu = {}
    for at, used in ticks.values():
        cpu[at] = cpu.get(at, 0) + used / TICKS
    return child.returncode, {at: (clock[at], cpu[at]) for at in cpu}


def lines(times, seconds):
    yield f"# one run of the gate on {os.cpu_count()} processors that did nothing else."
    yield "# Crate, part, seconds on the clock (or -), seconds of the processor, with tabs between. The line"
    yield "# `all clock` has those of the whole run."
    for crate in NAMES:
        for part in PARTS:
            if (crate, part) in times:
                yield "{}\t{}\t{:.0f}\t{:.0f}".format(crate, part, *times[crate, part])
    yield "all\tclock\t{:.0f}\t{:.0f}".format(*seconds)


def main():
    words = sys.argv[1:]
    target = Path(words[1]) if words[:1] == ["--to"] else TIMES
    command = (words[2:] if words[:1] == ["--to"] else words) or ["rt", "ci"]
    start = time.monotonic()
    status, times = watch(command)
    used = resource.getrusage(resource.RUSAGE_CHILDREN)
    seconds = (time.monotonic() - start, used.ru_utime + used.ru_stime)
    target.write_text("\n".join(lines(times, seconds)) + "\n")
    known = sum(cpu for (crate, part), (_, cpu) in times.items() if crate and part in PARTS)
    print(f"status {status}; {seconds[0]:.0f} s on the clock, {seconds[1]:.0f} s of the processor, "
          f"of which {seconds[1] - known:.0f} s of no crate")
    return status


if __name__ == "__main__":
    sys.exit(main())
