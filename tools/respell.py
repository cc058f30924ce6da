#!/usr/bin/env python3
"""Brings this repository's own names to today's spelling, by respell.tsv beside this file: old name, tab, new name.

usage: python3 tools/respell.py [ROOT]   once, right after /opt/rattle/port/port.py, on the files of ROOT/crates

Definitions and lemmas are in snake case; a dash stays where it joins two names. In a function's proof a name that Rattle
made stays as it is: one whose type is the goal's, and one behind a dot that is no field of a record of ours. So does a
name that a file takes from a library.
"""
import pathlib
import re
import sys

HERE = pathlib.Path(__file__).resolve().parent
NAME = re.compile(r"[^\s(){}.;,@\"«»\[\]|`'’]+(?:'+(?=[\s(){}.;,\[\]|]|$))?")
FIELD = re.compile(r"^\s+pub ([^\s:]+) :", re.M)
USE = re.compile(r"\buse ([^\s;{]+)\.\{([^}]*)\}")
GOAL = re.compile(r"^(\S+) : (?:\{[^}]*\} → )*(?:\([^)]*\) → )*tie\.", re.M)


def table():
    lines = (HERE / "respell.tsv").read_text(encoding="utf-8").splitlines()
    return dict(line.split("\t") for line in lines if line)


def files(root):
    for pattern in ("*/specs/**/*.antt", "*/proofs/**/*.antt", "*/src/**/*.rt"):
        for path in sorted((root / "crates").glob(pattern)):
            if "out" not in path.relative_to(root).parts:
                yield path


def lent(text, crates):
    """The names that a file takes from a library: these stay as they are."""
    found = set()
    for path, words in USE.findall(text):
        steps = path.split(".")
        if steps[0] != "Rattle" or steps[1] not in crates:
            found.update(w.split(" as ")[0].strip() for w in words.split(","))
    return found


def respelled(text, names, fields, stays=frozenset()):
    def one(m):
        word = m.group(0)
        if word not in names or word in stays:
            return word
        before = text[:m.start()]
        if before.endswith("."):
            path = re.search(r"([^\s(){}\[\],.]+)\.$", before)
            module = path and path.group(1)[:1].isupper()
            if not module and word not in fields:
                return word
        return names[word]

    return NAME.sub(one, text)


def main():
    root = pathlib.Path(sys.argv[1] if len(sys.argv) > 1 else ".")
    names = table()
    texts = {p: p.read_text(encoding="utf-8") for p in files(root)}
    fields = {n for p, t in texts.items() if p.suffix == ".antt" for n in FIELD.findall(t)}
    crates = {p.name for p in (root / "crates").iterdir()}
    changed = 0
    for path, text in texts.items():
        stays = lent(text, crates) | (set(GOAL.findall(text)) if path.suffix == ".antt" else set())
        new = respelled(text, names, fields, stays)
        if new != text:
            path.write_text(new, encoding="utf-8")
            changed += 1
    print(f"respell: {len(names)} names, {changed} files changed")


if __name__ == "__main__":
    main()
