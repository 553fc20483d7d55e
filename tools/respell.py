#!/usr/bin/env python3
"""Brings the names that the kit's port.py leaves to today's spelling: words in snake case, facts and types in camel case.

usage: tools/respell.py        at the top of the repository, once, right after port.py

A dash still joins the parts of a name, as in `length-erode_once`. It turns whole names in the .antt and .rt files of
crates/, comments included, and the code spans of README.md and docs/ (docs/LANDINGS.md tells what was and stays). It
also writes a clause that holds a single fact without its star.
"""

import os
import re

# A name that a rule would spell like another one, or like a field of the code.
APART = {
    "blankRows": "blank_row_count",
    # port.py spelled these like a library's names
    "above_at": "above-at",
    "is_right": "right-is",
    "all_get_d": "all-get_or",
    "get_d_tabulate": "get_or-tabulate",
    "get_d_default": "get_or-default",
    "get_d_moved": "get_or-moved",
}
NAME = re.compile(r"[^\s(){}.;,@\"«»`:/]+")
STARRED = re.compile(r"\b(ensures|requires)\*( \w+)? \{ do\s*⌜(((?!⌜).)*?)⌝ \}", re.S)
SPAN = re.compile(r"`[^`\n]+`")


def part(word):
    if word.startswith("getD"):
        word = "get_or" + word[4:]
    if not re.match(r"[a-z]", word):
        return word
    return re.sub(r"(?<=[a-z0-9])([A-Z])", lambda m: "_" + m[1].lower(), word)


def name(word):
    return APART.get(word) or "-".join(part(w) for w in word.split("-"))


def names(text):
    return NAME.sub(lambda m: name(m[0]), text)


def unstarred(text):
    return STARRED.sub(lambda m: f"{m[1]}{m[2] or ''} {{{m[3].rstrip()} }}", text)


def turn(path, how):
    with open(path, encoding="utf-8") as f:
        old = f.read()
    new = how(old)
    if new != old:
        with open(path, "w", encoding="utf-8") as f:
            f.write(new)


def main():
    for folder, folders, files in os.walk("crates"):
        folders[:] = [f for f in folders if f != "out"]
        for file in files:
            path = os.path.join(folder, file)
            if file.endswith(".antt"):
                turn(path, names)
            elif file.endswith(".rt"):
                turn(path, lambda text: unstarred(names(text)))
    for path in ("README.md", "docs/ARCHITECTURE.md", "docs/DECISIONS.md"):
        turn(path, lambda text: SPAN.sub(lambda m: names(m[0]), text))


if __name__ == "__main__":
    main()
