#!/usr/bin/env python3
"""Writes the rows of nesting_places.rows to standard output: nesting.py > ROWS

Each form that has an expression in it is nested 254 to 258 times, in each place for an expression. The
expected result is computed here: an expression is open from its mark `<` to its mark `>`, at most LIMIT
may be open inside one another, and the first one that exceeds the limit is an error, at its first
token.
"""
import re

LIMIT = 256
LEVELS = range(254, 259)

# Each form, with E for what is nested in it, and whether it is a value.
FORMS = [
    ("(<E>)", True),
    ("[<E>]", True),
    ("[<b>, <E>]", True),
    ("f(<E>)", True),
    ("f(<b>, <E>)", True),
    ("assert(<E>)", True),
    ("assert(<b>, <E>)", True),
    ("f'{{ <E> }}'", True),
    ("!(<E>)", True),
    ("if <E> { <c> }", False),
    ("if <b> { <E> }", False),
    ("if <b> { <c> } else { <E> }", False),
    ("if <b> { <c> } else if <E> { <d> }", False),
    ("if <b> { <c> } else if <d> { <E> }", False),
    ("b || <E>", False),
    ("b && (<E>)", False),
    ("b + (<E>)", False),
    ("/ (<E>)", False),
]

# Each place, with E for the expression in it, and whether that is a value there.
PLACES = [
    ("a := <E>\n", False),
    ("f(a) := <E>\n", False),
    ("set tempdir := <E>\n", False),
    ("[doc(<E>)]\nfoo:\n", False),
    ("foo a=E:\n", True),
    ("foo: (a <E>)\n", False),
    ("foo: *(a *E)\n", True),
    ("foo:\n    {{ <E> }}\n", False),
]


def sides(text):
    """The text before the E, and the text after it."""
    return text.split("E")


def unmarked(text):
    return text.replace("<", "").replace(">", "")


def placed(place, form):
    """The text before and after an expression in a place: parentheses too, if it has to be a value
    there and this form isn't one."""
    (text, wants_value), (_, is_value) = place, form
    before, after = sides(text)
    if wants_value and not is_value:
        return before + "(<", ">)" + after
    return before, after


def refusal(marked):
    """The offset and the length of the first token of the first expression that exceeds the limit, or
    none."""
    offset = depth = 0
    for place, mark in enumerate(marked):
        if mark == ">":
            depth -= 1
        elif mark != "<":
            offset += 1
        elif depth == LIMIT:
            return offset, len(re.match(r"[a-z]+|.", unmarked(marked[place:]))[0])
        else:
            depth += 1
    return None


def repeated(count, text):
    return "\\%d‹%s›" % (count, unmarked(text))


def notation(text):
    return unmarked(text).replace("\n", "\\n")


def printed_as(form):
    """The form as it is printed, with what is nested, and the same with what is in the middle."""
    if form == "if <b> { <c> } else { <E> }":
        return "if b { c } else E", "{ b }"
    return form, "b"


def nested(place, form, level):
    """The text with an expression nested in a place, with its marks and in the notation."""
    before, after = placed(place, form)
    opening, closing = sides(form[0])
    marked = before + opening * level + "b" + closing * level + after
    written = notation(before) + repeated(level, opening) + "b" + repeated(level, closing) + notation(after)
    return marked, written


def printed(place, form, level):
    """The printed text with an expression nested in a place, in the notation."""
    before, after = placed(place, form)
    shape, middle = printed_as(form[0])
    opening, closing = sides(shape)
    last = repeated(level, closing) if closing else ""
    return notation(before) + repeated(level, opening) + middle + last + notation(after)


def taken(form, level):
    """The row of a file with all places that allow this many levels."""
    places = [place for place in PLACES if refusal(nested(place, form, level)[0]) is None]
    if not places:
        return []
    source = "\\\n  ".join(nested(place, form, level)[1] for place in places)
    target = "\\\n  ".join(printed(place, form, level) for place in places)
    if source == target:
        return ["canonical «%s»" % source]
    return ["prints «%s»\n  «%s»" % (source, target)]


def rejected(form, level):
    """The rows of the places that don't allow this many levels."""
    for place in PLACES:
        marked, written = nested(place, form, level)
        fault = refusal(marked)
        if fault is not None:
            yield "rejected «%s» ParsingRecursionDepthExceeded %d %d" % (written, *fault)


def main():
    print("# Each form that has an expression in it, nested 254 to 258 times, in each place for an")
    print("# expression. Written by tools/nesting.py, which computes the expected results.")
    for form in FORMS:
        print("\n# %s" % unmarked(form[0]).replace("E", "..").rstrip())
        for level in LEVELS:
            for row in [*taken(form, level), *rejected(form, level)]:
                print(row)


if __name__ == "__main__":
    main()
