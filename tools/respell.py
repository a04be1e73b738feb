#!/usr/bin/env python3
"""Gives this repository's own definitions and lemmas the spelling of today's Rattle.

usage: python3 tools/respell.py        at the top of a repository that the kit's port.py has turned

Each line of tools/respelled.tsv is an old name and its new one. They are replaced as whole names in specs/ and proofs/, in the contracts
of src/, and in the edits of must-fail/. Comments keep their words, but for names that no sentence could have.
"""
import os
import re

HERE = os.path.dirname(os.path.realpath(__file__))
NAME = re.compile(r"[A-Za-z][A-Za-z0-9_']*(?:-[A-Za-z0-9_']+)*")
CODED = re.compile(r"[a-z][A-Z]")


def table():
    with open(os.path.join(HERE, "respelled.tsv"), encoding="utf-8") as f:
        return dict(line.rstrip("\n").split("\t")[:2] for line in f if line.strip())


def texts(root):
    for folder, dirs, files in os.walk(os.path.join(root, "crates")):
        dirs[:] = sorted(d for d in dirs if d != "out")
        for f in sorted(files):
            if f.endswith((".antt", ".rt", ".edit")):
                yield os.path.join(folder, f)


def split(line, mark):
    """A line's code and its comment."""
    at = line.find(mark)
    return (line, "") if at < 0 else (line[:at], line[at:])


def turned(path, text, names):
    def all_names(m):
        return names.get(m[0], m[0])

    def coded_names(m):
        return names.get(m[0], m[0]) if CODED.search(m[0]) else m[0]

    out = []
    for line in text.split("\n"):
        if path.endswith(".antt"):
            code, comment = split(line, "-- ") if not line.startswith("--") else ("", line)
        elif path.endswith(".rt"):
            code, comment = split(line, "//")
        else:
            code, comment = line, ""
        out.append(NAME.sub(all_names, code) + NAME.sub(coded_names, comment))
    return "\n".join(out)


def main():
    names = table()
    changed = 0
    for path in texts("."):
        with open(path, encoding="utf-8") as f:
            text = f.read()
        new = turned(path, text, names)
        if new != text:
            changed += 1
            with open(path, "w", encoding="utf-8") as f:
                f.write(new)
    print(f"respell: {changed} files changed")


if __name__ == "__main__":
    main()
