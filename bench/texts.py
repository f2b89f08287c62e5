"""What the two generators of inputs share."""
import os
import sys


def repeated(piece, size):
    """The piece repeated, at most `size` bytes."""
    return piece * (size // len(piece))


def write(kinds):
    """Writes the file KIND.SIZE for each kind and size into the folder: FOLDER SIZE.. are the
    program's arguments, and a kind is a function from the size to the text."""
    folder = sys.argv[1]
    os.makedirs(folder, exist_ok=True)
    for size in map(int, sys.argv[2:]):
        for kind, text in kinds.items():
            with open(os.path.join(folder, "%s.%d" % (kind, size)), "w", newline="") as file:
                file.write(text(size))
