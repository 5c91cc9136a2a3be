#!/usr/bin/env python3
"""Spells the repository's own definitions and lemmas as today's Rattle does, by the table port_names.txt: old name, new name.

usage: python3 tools/port_names.py                       once, at the top of the repository, on what the kit's port.py leaves
       python3 tools/port_names.py port_names_later.txt  the names that the first table left, once, on proofs of today's form

Words are in snake case and types in camel case; a dash stays where it joins two names. Whole words alone are replaced, in specs/, proofs/,
contracts and must-fail edits; the code of src/ has none of the old names. In edits the kit's own respellings are made too.
"""

import os
import re
import sys

HERE = os.path.dirname(os.path.realpath(__file__))
WORD = re.compile(r"[^\s(){}\[\]:;,.«»\"`]+")

# In answers a name behind `c.` is the check's own.
OURS = re.compile(r"(?<!\bc\.)(?<![^\s(){}\[\]:;,.«»\"`])[^\s(){}\[\]:;,.«»\"`]+")

# Names that the kit's port.py respelled, since a library has the same spelling: in edits they are still the old ones.
KIT = "add-at countOf emptyAt inRow markOf numberAt numberOf partOf placeOf rowsFrom storedBlock"


def snake(name):
    return re.sub(r"(?<=[a-z0-9])([A-Z])", lambda m: "_" + m.group(1).lower(), name).replace("-", "_")


def table():
    with open(os.path.join(HERE, (sys.argv[1:] or ["port_names.txt"])[0]), encoding="utf-8") as f:
        return dict(line.split() for line in f)


def files(root):
    for folder, dirs, names in os.walk(os.path.join(root, "crates")):
        dirs[:] = sorted(d for d in dirs if d != "out")
        for name in sorted(names):
            if name.endswith((".rt", ".antt", ".edit")):
                yield os.path.join(folder, name)


def turned(text, names):
    return (OURS if sys.argv[1:] else WORD).sub(lambda m: names.get(m.group(0), m.group(0)), text)


def turned_edit(text, names):
    """An edit of a definition, whose text port.py leaves as it was."""
    if not text.startswith("file: specs/"):
        return text
    text = re.sub(r"\((\w+) \.(\w+)\)", r"\1.\2", text).replace("\u00b7", ".")
    return turned(text, names | {old: snake(old) for old in KIT.split()} | {"getD": "get_or"})


def main():
    names = table()
    for path in files(os.path.dirname(HERE)):
        with open(path, encoding="utf-8") as f:
            old = f.read()
        new = turned_edit(old, names) if path.endswith(".edit") else turned(old, names)
        clash(path, old, names)
        if new != old:
            with open(path, "w", encoding="utf-8") as f:
                f.write(new)


def clash(path, text, names):
    """Says where two names of a file fall together."""
    words = set(WORD.findall(text))
    seen = {}
    for word in sorted(words):
        new = names.get(word, word)
        if new in seen and not path.endswith(".edit"):
            print(f"{path}: {seen[new]} and {word} are both {new}")
        seen[new] = word


if __name__ == "__main__":
    main()
