#!/usr/bin/env python3
"""Moves definitions or lemmas of a crate into a folder: move_modules.py CHECKOUT CRATE specs|proofs FOLDER NAME..

The folder is a module: FOLDER.antt beside the folder declares the files in it. Every import of a moved file, in all
crates, names the folder from then on, and so does each path to it in comments, documents and tools.
"""
import re
import subprocess
import sys
from pathlib import Path


def main():
    top, crate, part, folder, *names = sys.argv[1:]
    top = Path(top)
    home = top / "crates" / crate / part
    (home / folder).mkdir(exist_ok=True)
    library, parent = home / "Lib.antt", home / f"{folder}.antt"
    lines = library.read_text().splitlines()
    inner = parent.read_text().splitlines() if parent.exists() else [f"-- {folder}."]
    for name in names:
        lines = [line for line in lines if line not in (f"pub mod {name}", f"mod {name}")]
        inner.append(f"pub mod {name}")
        subprocess.run(["git", "-C", str(top), "mv", f"crates/{crate}/{part}/{name}.antt",
                        f"crates/{crate}/{part}/{folder}/{name}.antt"], check=True)
    if f"pub mod {folder}" not in lines:
        lines = sorted([*lines, f"pub mod {folder}"], key=lambda it: it.split()[-1])
    library.write_text("\n".join(lines) + "\n")
    parent.write_text("\n".join([inner[0], *sorted(set(inner[1:]))]) + "\n")

    either = "|".join(map(re.escape, names))
    dotted = re.compile(rf"\b(Rattle\.{crate}\.{part})\.({either})\b")
    outside = re.compile(rf"\b({crate}::{part})::({either})\b")
    inside = re.compile(rf"\b(crate::{part})::({either})\b")
    path = re.compile(rf"\b({crate}/{part})/({either})\.antt\b")
    own_path = re.compile(rf"(?<![\w/])({part})/({either})\.antt\b")
    listed = subprocess.run(["git", "-C", str(top), "ls-files", "-z"], capture_output=True, check=True).stdout
    changed = 0
    for file in listed.decode().split("\0"):
        if not re.search(r"\.(antt|rt|edit|md|py|sh)$", file) or not (top / file).is_file():
            continue
        text = (top / file).read_text()
        new = dotted.sub(rf"\1.{folder}.\2", text)
        new = outside.sub(rf"\1::{folder}::\2", new)
        new = path.sub(rf"\1/{folder}/\2.antt", new)
        if file.startswith(f"crates/{crate}/"):
            new = inside.sub(rf"\1::{folder}::\2", new)
            new = own_path.sub(rf"\1/{folder}/\2.antt", new)
        if new != text:
            (top / file).write_text(new)
            changed += 1
    print(f"{len(names)} moved, {changed} files changed")


if __name__ == "__main__":
    main()
