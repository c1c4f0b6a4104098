#!/usr/bin/env python3
"""Respells the repository's own definitions and lemmas as today's Rattle does: words in snake case, a dash only between two names. Run once, right after the
kit's port.py; tools/respell.tsv has each old name and its new one. usage: respell.py [FOLDER]

Whole identifiers are turned in .antt files, in clauses and imports of .rt files and in must-fail edits; in comments only those in camel case."""

import os
import re
import sys

HERE = os.path.dirname(os.path.realpath(__file__))
TOKEN = re.compile(r"[^\s(){}\[\]:;,.`\"«»]+")


def table():
    with open(os.path.join(HERE, "respell.tsv"), encoding="utf-8") as f:
        return dict(line.rstrip("\n").split("\t") for line in f)


NAMES = table()
CAMEL = {old: new for old, new in NAMES.items() if re.search(r"[a-z0-9][A-Z]", old) and "-" not in old}


def turn(text, names):
    return TOKEN.sub(lambda m: names.get(m.group(0), m.group(0)), text)


def antt(text):
    lines = []
    for line in text.split("\n"):
        code, mark, comment = line.partition("--")
        lines.append(turn(code, NAMES) + mark + turn(comment, CAMEL))
    return "\n".join(lines)


def clauses(text):
    """Of a .rt file: imports of ghosts, the braces after requires, ensures and ghost, and comments."""
    out, depth = [], 0
    for line in text.split("\n"):
        bare = line.lstrip()
        if depth == 0 and bare.startswith("//"):
            out.append(turn(line, CAMEL))
            continue
        starts = re.match(r"(ghost use|ghost|requires|ensures)\b", bare)
        if depth > 0 or starts:
            out.append(turn(line, NAMES))
            depth += line.count("{") - line.count("}")
        else:
            out.append(line)
    return "\n".join(out)


def edit(text):
    """Of a must-fail edit: what it puts into an .antt file, or into a clause."""
    kind, lines = None, []
    for line in text.split("\n"):
        m = re.match(r"(file|old|new): ?(.*)$", line)
        if m and m.group(1) == "file":
            kind = m.group(2).rsplit(".", 1)[-1]
        elif m and kind == "antt":
            line = m.group(1) + ": " + turn(m.group(2), NAMES)
        elif m and re.match(r"\s*(ghost|requires|ensures)\b", m.group(2)):
            line = m.group(1) + ": " + turn(m.group(2), NAMES)
        lines.append(line)
    return "\n".join(lines)


def main(root):
    for folder, dirs, files in os.walk(os.path.join(root, "crates")):
        dirs[:] = sorted(d for d in dirs if d != "out")
        for name in sorted(files):
            how = {"antt": antt, "rt": clauses, "edit": edit}.get(name.rsplit(".", 1)[-1])
            if not how:
                continue
            path = os.path.join(folder, name)
            with open(path, encoding="utf-8") as f:
                old = f.read()
            new = how(old)
            if new != old:
                with open(path, "w", encoding="utf-8") as f:
                    f.write(new)


if __name__ == "__main__":
    main(sys.argv[1] if len(sys.argv) > 1 else ".")
