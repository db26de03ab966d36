#!/usr/bin/env python3
"""Prints a table of the crates, as docs/PROOFS.md has it: 'make figures'.

Functions are those of src/*.rt, private ones too. Lines are all lines of the files: code is src/*.rt, specs and proofs
are the *.antt files of these folders. Edits are the files must-fail/*.edit. rt tells no seconds.
"""

import pathlib
import re
import sys

ROOT = pathlib.Path(__file__).resolve().parents[2]
HEADS = ["Crate", "Functions", "Code", "Specs", "Proofs", "Edits"]


def texts(folder, pattern):
    return [path.read_text(encoding="utf-8") for path in sorted(folder.rglob(pattern))]


def lines(folder, pattern):
    return sum(len(text.splitlines()) for text in texts(folder, pattern))


def counted(crate):
    """The five numbers of a crate."""
    code = texts(crate / "src", "*.rt")
    functions = sum(len(re.findall(r'(?m)^ *(?:pub )?(?:extern "C" )?fn \w+', text)) for text in code)
    specs, proofs = lines(crate / "specs", "*.antt"), lines(crate / "proofs", "*.antt")
    return [functions, lines(crate / "src", "*.rt"), specs, proofs, len(list(crate.glob("must-fail/*.edit")))]


def row(cells):
    return "| " + " | ".join(cells) + " |"


def table(crates):
    yield row(HEADS)
    yield "|---" * len(HEADS) + "|"
    each = {crate: counted(ROOT / "crates" / crate) for crate in crates}
    for crate, numbers in each.items():
        yield row([f"`{crate}`", *(f"{number:,}" for number in numbers)])
    yield row(["all", *(f"{sum(column):,}" for column in zip(*each.values()))])


def main():
    # more words may stand between a crate's name and the colon
    crates = re.findall(r"(?m)^(\w+)[^:#\n]*:", (ROOT / "crates.txt").read_text(encoding="utf-8"))
    print(*table(crates), sep="\n")
    return 0


if __name__ == "__main__":
    sys.exit(main())
