#!/usr/bin/env python3
"""Checks a crate over libraries that are built already: check_over.py LIBRARIES CRATE FLAG..

LIBRARIES is one of
- a checkout of this repository in which `rt check` or `rt ci` has proved the crates below, or is proving them. The
  libraries that it has built are used if their sources are the same here; the others are passed as sources, which
  costs minutes.
- an archive of pack.sh. It is unpacked beside itself once, and refused if a sum in it isn't that of the sources here,
  or if it was made by another kit.

CRATE is a crate of this repository, or the folder of a caller anywhere, whose libraries are those that the nearest
crates.txt at or above it names, as `lister: justfile_syntax`. The flags are those of `rattle check`, such as
`--only FUNCTION`, `--allow-holes`, `--jobs 2`, or `--incremental DIR`, which keeps what is checked for the next time.
With `--try` alone the crate is run by `rt try`, over the sources, without a proof.

`check_over.py --pack CRATE FOLDER` is for pack.sh: it writes the sums and the kit, and prints the paths to pack.
"""
import hashlib
import os
import shutil
import subprocess
import sys
import tempfile
from pathlib import Path

TOP = Path(__file__).resolve().parent.parent
KIT = Path(shutil.which("rt") or "rt").resolve().parent.parent
OF_KIT = ("std", "core")


def libraries(file=TOP / "crates.txt"):
    """The libraries that each crate names, as crates.txt has them."""
    lines = [line.partition("#")[0].split(":", 1) for line in file.read_text().splitlines()]
    return {line[0].split()[0]: line[1].split() for line in lines if len(line) == 2}


def below(crate, named, found):
    """The crates below one, each after those below it."""
    for other in named[crate]:
        if other in named and other not in found:
            below(other, named, found)
            found.append(other)
    return found


def of_kit(crate, named):
    """The libraries of the kit that a crate or one below it names, and the two that each has."""
    others = {name for it in [crate, *below(crate, named, [])] for name in named[it] if name not in named}
    return sorted(others.union(OF_KIT))


def digest(folder):
    """A sum of what a crate's library is built of."""
    total = hashlib.sha256()
    for part in ("src", "specs", "proofs"):
        for file in sorted((folder / part).rglob("*")):
            if file.is_file():
                total.update(str(file.relative_to(folder)).encode() + b"\0" + file.read_bytes())
    return total.hexdigest()


def kit_version():
    return subprocess.run([KIT / "bin/rt", "version"], capture_output=True, text=True, check=True).stdout


def library(crate):
    return f"crates/{crate}/out/rlib/{crate}.rlib"


def words(crate, named, built_in):
    """What names the libraries below a crate: built ones, and sources where there is none."""
    built, flags = set(), []
    for other in below(crate, named, []):
        path = built_in / library(other)
        if path.exists() and all(it in built for it in named[other] if it in named) and is_same(other, built_in):
            built.add(other)
            flags += ["-L", f"dependency={path.parent}", "--extern", f"{other}={path}"]
        else:
            print(f"from sources: {other}", file=sys.stderr)
            flags += ["--lib", f"{other}:{','.join(['core', 'std', *named[other]])}={TOP}/crates/{other}/src/lib.rt"]
    return flags


def sums_of(folder):
    """The sums of an unpacked archive, or of a checkout none."""
    sums = folder / "sums"
    return dict(line.split() for line in sums.read_text().splitlines()) if sums.exists() else {}


def is_same(crate, folder):
    """Whether a library is built of the sources that are here."""
    sums = sums_of(folder)
    return digest(TOP / "crates" / crate) == (sums[crate] if sums else digest(folder / "crates" / crate))


def pack(crate, folder):
    """Writes the sums of a library and of those below it, and the kit, and prints the paths of these libraries."""
    crates = [*below(crate, libraries(), []), crate]
    missing = [it for it in crates if not (TOP / library(it)).exists()]
    if missing:
        sys.exit(f"pack.sh: not built here: {', '.join(missing)}")
    Path(folder, "sums").write_text("".join(f"{it} {digest(TOP / 'crates' / it)}\n" for it in crates))
    Path(folder, "kit").write_text(kit_version())
    print("\n".join(map(library, crates)))


def unpacked(archive):
    """The folder of an archive, which is unpacked once. Ends where the archive isn't one of these sources."""
    folder = archive.with_name(archive.name.partition(".tar")[0])
    if not (folder / "kit").exists():
        folder.mkdir(exist_ok=True)
        subprocess.run(["tar", "-x", "--zstd", "-f", archive, "-C", folder], check=True)
    if (folder / "kit").read_text() != kit_version():
        sys.exit(f"{archive}: made by another kit: {(folder / 'kit').read_text().strip()}")
    others = [it for it, total in sums_of(folder).items() if digest(TOP / "crates" / it) != total]
    if others:
        sys.exit(f"{archive}: built of other sources: {', '.join(others)}")
    return folder


def caller(folder):
    """The name of a caller, with all crates that it can name: those of its own crates.txt and those here."""
    for place in [folder, *folder.parents]:
        own = libraries(place / "crates.txt") if (place / "crates.txt").exists() else {}
        if folder.name in own:
            return folder.name, {**libraries(), folder.name: own[folder.name]}
    sys.exit(f"{folder}: no crates.txt at or above it names it")


def try_over(crate, named, folder):
    """Runs `rt try` on a copy of a crate and of those below it, since `rt` follows no link out of its folder."""
    with tempfile.TemporaryDirectory() as top:
        crates = [*below(crate, named, []), crate]
        (Path(top) / "crates.txt").write_text("".join(f"{it}: {' '.join(named[it])}\n" for it in crates))
        for it in crates:
            source = folder if it == crate else TOP / "crates" / it
            shutil.copytree(source, Path(top) / "crates" / it, ignore=shutil.ignore_patterns("out", "must-fail"))
        return subprocess.call([KIT / "bin/rt", "try"], cwd=Path(top) / "crates" / crate)


def main():
    if sys.argv[1] == "--pack":
        return pack(*sys.argv[2:])
    place, crate, *flags = sys.argv[1:]
    named, folder = libraries(), TOP / "crates" / crate
    if crate not in named:
        folder = Path(crate).resolve()
        crate, named = caller(folder)
    if flags == ["--try"]:
        return try_over(crate, named, folder)
    place = Path(place).resolve()
    built_in = unpacked(place) if place.is_file() else place
    root = "src/lib.rt" if (folder / "src/lib.rt").exists() else "src/main.rt"
    kit = [flag for name in of_kit(crate, named) for flag in ("--extern", f"{name}={KIT}/rlibs/{name}.rlib")]
    logic = ["--antt-project", f"{KIT}/rattle/logic/antt-project.json", "--logic-built", f"{KIT}/logic_built"]
    command = [f"{KIT}/bin/rattle", "check", "--crate-name", crate, root, "-L", f"dependency={KIT}/rlibs", *kit]
    command += [*words(crate, named, built_in), *logic, "--links", f"{crate}=", *flags]
    return subprocess.call(command, cwd=folder)


if __name__ == "__main__":
    sys.exit(main())
