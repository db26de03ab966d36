#!/usr/bin/env python3
"""Spells this repository's own definitions and lemmas as today's Rattle does: words in snake case.

usage: python3 tools/port-names.py      at the top of the repository, once, right after port.py

tools/port-names.tsv has a name's old and new spelling on each line. A lemma that would get the name of a definition ends in _lem.
Definitions are renamed in crates/ (strings left out), and in the pages, scripts and tests that read or cite them; lemmas in crates/ and,
between backticks, in the pages. Names of src/, exported names, strings, inputs and outputs stay.
"""

import os
import re
import sys

TABLE = os.path.join(os.path.dirname(os.path.abspath(__file__)), "port-names.tsv")
PIECE = re.compile(r'"(?:\\.|[^"\\\n])*"|--[^\n]*|//[^\n]*|[^\s(){}\[\].,;:"]+|.', re.DOTALL)
WORD = re.compile(r"[A-Za-z0-9_'-]+")
# fields of records of this repository, renamed behind a dot too
FIELDS = {"record-path", "url-path", "first-whole", "later-none"}
CAMEL = re.compile(r"(?<![\w'-])[a-z][A-Za-z0-9]*(?![\w'])")


def table():
    with open(TABLE, encoding="utf-8") as f:
        return dict(line.rstrip("\n").split("\t") for line in f if line.strip())


def definitions(names):
    return {old: new for old, new in names.items() if re.fullmatch(r"[a-z][A-Za-z0-9]*", old) and old != old.lower()}


def in_backticks(text, names):
    def words(m):
        return WORD.sub(lambda w: names.get(w.group(0), w.group(0)), m.group(0))

    return re.sub(r"`[^`\n]*`", words, text)


def in_code(text, names, camel):
    """Definitions and lemmas of a file of crates/; a lemma's name behind a dot is something else's."""
    out = []
    behind = ""
    for piece in PIECE.findall(text):
        if piece.startswith('"'):
            new = piece
        elif piece.startswith("--") or piece.startswith("//"):
            new = in_backticks(CAMEL.sub(lambda m: camel.get(m.group(0), m.group(0)), piece), names)
        elif piece in camel:
            new = camel[piece]
        elif behind != "." or piece in FIELDS:
            new = names.get(piece, piece)
        else:
            new = piece
        out.append(new)
        behind = piece
    return "".join(out)


def files(*folders):
    for top in folders:
        if os.path.isfile(top):
            yield top
        for folder, dirs, names in os.walk(top):
            dirs[:] = sorted(d for d in dirs if d not in ("out", "target", ".git"))
            for name in sorted(names):
                yield os.path.join(folder, name)


def rewrite(path, turn):
    with open(path, encoding="utf-8") as f:
        old = f.read()
    new = turn(old)
    if new != old:
        with open(path, "w", encoding="utf-8") as f:
            f.write(new)
        return 1
    return 0


def main():
    if not os.path.isdir("crates"):
        print("port-names.py: run it at the top of the repository", file=sys.stderr)
        return 2
    names = table()
    camel = definitions(names)
    not_of_rust = {old: new for old, new in names.items() if old in camel or "-" in old}
    count = 0
    for path in files("crates"):
        if path.endswith((".antt", ".edit")):
            count += rewrite(path, lambda t: in_code(t, names, camel))
        elif path.endswith(".rt"):
            count += rewrite(path, lambda t: in_code(t, not_of_rust, camel))
    for path in files("docs", "README.md", "CHANGELOG.md"):
        if path.endswith(".md") and os.path.basename(path) != "PORT.md":
            count += rewrite(path, lambda t: in_backticks(t, names))
    for path in files("conformance"):
        if path.endswith((".rs", ".py", ".sh", ".c", ".h")):
            count += rewrite(path, lambda t: CAMEL.sub(lambda m: camel.get(m.group(0), m.group(0)), t))
    print(f"port-names.py: {count} files changed")
    return 0


if __name__ == "__main__":
    raise SystemExit(main())
