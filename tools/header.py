#!/usr/bin/env python3
"""Compares how library/ and web/ see the answer with the source of justfile_c: header.py

The fields of the answer, in their order and with their sizes, and the parameters of the function, as
crates/justfile_c/src/lib.rt has them, stand in library/justfile.h, in library/justfile.py and in web/justfile.mjs.
Prints what differs, and ends with 1 if something does.
"""
import re
import sys
from pathlib import Path

TOP = Path(__file__).resolve().parent.parent
SIZES = {"u32": 4, "usize": 8}
OF_C = {"uint32_t": 4, "size_t": 8, "c_uint32": 4, "c_size_t": 8}
# What C passes for each parameter; for `Global`, which has no bytes, nothing.
PASSED = {
    "Global": [],
    "&[u8]": ["const uint8_t *", "size_t"],
    "&mut [u8]": ["uint8_t *", "size_t"],
    "&mut JustfileAnswer": ["struct justfile_answer *"],
}


def read(path):
    return (TOP / path).read_text()


def of_source():
    """The fields and the parameters that the source has."""
    text = read("crates/justfile_c/src/lib.rt")
    struct = re.search(r"#\[repr\(C\)\]\npub struct JustfileAnswer \{(.*?)\n\}", text, re.S).group(1)
    call = re.search(r'#\[unsafe\(no_mangle\)\]\npub extern "C" fn justfile_format\((.*?)\n\)', text, re.S).group(1)
    fields = [(name, SIZES[of]) for name, of in re.findall(r"^    pub (\w+): (\w+),", struct, re.M)]
    passed = [it for of in re.findall(r"^    \w+: (.*),$", call, re.M) for it in PASSED[of]]
    return fields, passed


def of_header():
    text = re.sub(r"/\*.*?\*/", "", read("library/justfile.h"), flags=re.S)
    struct = re.search(r"struct justfile_answer \{(.*?)\n\};", text, re.S).group(1)
    fields = [(name, OF_C[of]) for of, names in re.findall(r"(\w+) ([\w, ]+);", struct) for name in names.split(", ")]
    call = re.search(r"void justfile_format\((.*?)\);", text, re.S).group(1)
    return fields, [re.sub(r"\w+$", "", " ".join(it.split())).strip() for it in call.split(",")]


def of_python():
    text = read("library/justfile.py")
    return [(name, OF_C[of]) for name, of in re.findall(r'\("(\w+)", ctypes\.(\w+)\)', text)]


def of_loader():
    """The fields that the loader reads: each name with its offset, as `status: [0, 4]`."""
    text = re.search(r"const FIELDS = \{(.*?)\};", read("web/justfile.mjs"), re.S).group(1)
    return [(name, int(at), int(size)) for name, at, size in re.findall(r"(\w+): \[(\d+), (\d+)\]", text)]


def placed(fields):
    """The fields with their offsets: each at a multiple of its size."""
    at, found = 0, []
    for name, size in fields:
        at = -(-at // size) * size
        found.append((name, at, size))
        at += size
    return found


def main():
    fields, passed = of_source()
    others = {
        "library/justfile.h: the fields": (of_header()[0], fields),
        "library/justfile.h: the parameters": ([it.replace(" *", "*") for it in of_header()[1]],
                                               [it.replace(" *", "*") for it in passed]),
        "library/justfile.py: the fields": (of_python(), fields),
        "web/justfile.mjs: the fields": (of_loader(), placed(fields)),
    }
    wrong = [f"{where}: {found}, and not {wanted}" for where, (found, wanted) in others.items() if found != wanted]
    print("\n".join(wrong or ["the header and the callers have what the source has"]))
    return 1 if wrong else 0


if __name__ == "__main__":
    sys.exit(main())
