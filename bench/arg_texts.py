#!/usr/bin/env python3
"""Writes justfiles with two to five `arg` attributes: arg_texts.py [--seed N] [--count N] [PROGRAM..]

Prints one JSON list with a line for each justfile, an object whose `text` is the justfile. With a program that formats
its standard input, such as `justfmt`, also what it says: its `status`, and what it writes, as `out` and `err`.

A seed gives the same justfiles each time. Names are few, so that options repeat; about a third of the justfiles have a
further fault: in an attribute, between attributes, or between them and the parameters.
"""
import argparse
import json
import random
import subprocess
import sys

SEED = 1
COUNT = 20_000

NAMES = "abcde"
SHORTS = "xyz"
QUOTES = ("'", '"', "'''", '"""')
PREFIXES = ("", "", "", "$")
VALUES = ("'v'", '"v"', "`v`", "v", "v + w", "f'{{v}}'", "if v { w } else { v }", "[v, w]")

# Keys that stand without `long` and `short` too.
FREE = (("pattern", VALUES), ("help", VALUES), ("min", ("'0'", "'2'")), ("max", ("'2'", "'10'")))

# Faulty arguments of an attribute after its name.
FAULTS = (
    "long=''",
    "long='-x'",
    "long='a=b'",
    "long=x",
    "short='xy'",
    "pattern",
    "value",
    "value='v'",
    "flag='x'",
    "multiple='x'",
    "flag, value='v'",
    "flag, pattern='v'",
    "min='3', max='2'",
    "max='x'",
    "max='01'",
    "min='99999999999999999999'",
    "color",
    "color='x'",
    "long, long",
    "long, 'b'",
    "'b'",
    ",",
)
ATTRIBUTES = ("[no-cd]", "[working-directory('d')]", "[group('g')]", "[private]", "[script('sh')]", "[shell]")


def literal(pick, text):
    """A string literal of this text."""
    quote = pick.choice(QUOTES)
    return pick.choice(("", "", "", "x")) + quote + text + quote


def options(pick):
    """The keys that name the options of an attribute, and those that need an option."""
    names = []
    if pick.random() < 0.6:
        names.append(pick.choice(("long", "long=" + literal(pick, pick.choice(NAMES + "lm")))))
    if pick.random() < 0.6:
        names.append(pick.choice(("short", "short=" + literal(pick, pick.choice(SHORTS)))))
    if names and pick.random() < 0.4:
        names.append(pick.choice(("flag", "multiple", "value=" + pick.choice(VALUES))))
    return names


def attribute(pick, name, faulty):
    """An `arg` attribute for a parameter, without brackets."""
    if pick.random() < 0.05:
        return "arg: " + literal(pick, name)
    keys = options(pick)
    for key, values in FREE:
        if pick.random() < 0.1:
            keys.append(key + "=" + pick.choice(values))
    pick.shuffle(keys)
    if faulty:
        keys.insert(pick.randint(0, len(keys)), pick.choice(FAULTS))
    return "arg(" + ", ".join([literal(pick, name), *keys]) + pick.choice(("", "", "", ",")) + ")"


def parameters(pick, names):
    """The parameters of the recipe, in any order, each with its prefix and its default."""
    names = pick.sample(names, len(names))
    found = [pick.choice(PREFIXES) + name + pick.choice(("", "", "", "='d'")) for name in names]
    found[-1] = pick.choice(("", "", "+", "*")) + found[-1]
    return found


def justfile(pick):
    """A justfile with one recipe, and attributes for its parameters."""
    names = list(NAMES[: pick.randint(2, 5)])
    fault = pick.choice(("attribute", "name", "other") + 6 * ("",))
    faulty = pick.choice(names) if fault == "attribute" else ""
    attributes = [attribute(pick, name, name == faulty) for name in pick.sample(names, len(names))]
    recipe = parameters(pick, names)
    if fault == "name":
        pick.choice((recipe.pop, lambda: recipe.append(pick.choice(recipe)), lambda: attributes.append(attributes[0])))()
    lines = []
    for found in attributes:
        if lines and pick.random() < 0.2:
            lines[-1] = lines[-1][:-1] + ", " + found + "]"
        else:
            lines.append("[" + found + "]")
    if fault == "other":
        lines += pick.sample(ATTRIBUTES, 2)
    return "\n".join([*lines, " ".join(["foo", *recipe]) + ":", ""])


def said(program, text):
    """What a program says to a justfile."""
    done = subprocess.run(program, input=text.encode(), stdout=subprocess.PIPE, stderr=subprocess.PIPE, check=False)
    return {"status": done.returncode, "out": done.stdout.decode(), "err": done.stderr.decode()}


def main():
    words = argparse.ArgumentParser(description=__doc__.split("\n", maxsplit=1)[0])
    words.add_argument("--seed", type=int, default=SEED)
    words.add_argument("--count", type=int, default=COUNT)
    words.add_argument("program", nargs="*")
    given = words.parse_args()
    pick = random.Random(given.seed)
    for at in range(given.count):
        text = justfile(pick)
        found = {"text": text, **(said(given.program, text) if given.program else {})}
        sys.stdout.write(("[" if at == 0 else ",\n") + json.dumps(found))
    print("]")


if __name__ == "__main__":
    main()
