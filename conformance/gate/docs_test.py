#!/usr/bin/env python3
"""Gives docs.py a small repository and pages with one fault each, and requires that it tells this fault alone."""

import pathlib
import sys
import tempfile

import docs

FILES = {
    "Makefile": "CC = gcc\nquick:\n\ttrue\n",
    "crates.txt": "walk:\n",
    "crates/walk/src/lib.rt": "// gone_function\npub struct Walked {\n    pub stood: bool,\n}\nfn walk_text() {}\n",
    "crates/walk/src/parts.rt": "pub enum Side {\n    Allow,\n}\n\nfn first_part() {}\n",
    "crates/walk/specs/Runs.antt": "-- gone_definition\nabbrev pub run_of : List ℕ → ℕ\nrun_of l = 0\n",
    "crates/walk/proofs/Cuts.antt": "module (l : ℕ) where\n    pub walk_turn : l ≡ l\n    walk_turn = gone_law\n",
    "crates/walk/proofs/gone_folder/Proof.antt": "loop-i-init : l ≡ l\n",
    "crates/walk/must-fail/star_literal.edit": "file: src/lib.rt\nold: a\nnew: b\n",
    "include/robots.h": "/* robots_gone */\nsize_t robots_line_kind(size_t line);\n",
    "bindings/python/robots.py": "def line_kind(line):\n    return 0\n",
    "conformance/library/tests/limits.rs": "#[test]\nfn the_longest_file() {\n    let gone = 1;\n}\n",
    "conformance/examples/data/001.txt": "decide | 001-typo-02 | a\n",
    "docs/ARCHITECTURE.md": "# The layers\n\n- `walk`: a walk\n",
}

RIGHT = """\
`walk` `crates/walk` `crates/walk/src/lib.rt` `walk/src/parts.rt` `parts.rt` `specs/Runs` `crates/NAME/src/*.rt`
`walk_text` `Walked` `stood` `walk::walk_text` `walk::parts::first_part` `Side::Allow` `run_of` `Runs.run_of`
`Cuts.walk_turn` `walk_turn` `loop-i-init` `star_literal` `robots_line_kind` `robots_line_` `loop-` `_kind`
`robots_.._kind` `robots.line_kind` `the_longest_file` `001-typo-02` `make quick` `rt ci walk` `run_of(l)`
`run_of (drop 1 path)` `/a%2$` `%24` `/search?q=a` `0x2B` `refused 3` `disallow: /` `https://example.com/gone`
`target/shared/gone` `requires` `include/robots.h` crates/walk/src and include/robots.h `c.before.args`
`crates/walk/out/walk` `crates/walk/out/libwalk.a` `crates/walk/out/` `out/` and crates/walk/out/libwalk.a

    crates/walk/src/lib.rt
"""

WRONG = [
    "`crates/gone`",
    "`crates/walk/src/gone.rt`",
    "`gone.rt`",
    "`crates/gone/out/gone`",
    "`crates/walk/out/gone`",
    "crates/walk/out/libgone.a",
    "`specs/Gone`",
    "`gone_function`",
    "`gone_folder`",
    "`gone_definition`",
    "`gone_law`",
    "`gone-i-init`",
    "`gone-`",
    "`Gone`",
    "`gone`",
    "`robots_gone`",
    "`robots_gone_`",
    "`_gone`",
    "`robots_.._gone`",
    "`walk::gone`",
    "`walk::lib::first_part`",
    "`gone::walk_text`",
    "`gone::parts::first_part`",
    "`Side::Gone`",
    "`Runs.gone`",
    "`Gone.run_of`",
    "`Cuts.run_of`",
    "`robots.gone`",
    "`gone_function(l)`",
    "`run_of (gone_definition path)`",
    "`make gone`",
    "`001-gone-02`",
    "`walk` and `crates",
    "docs/GONE.md",
    "    crates/gone/src/lib.rt",
    "x" * 121,
]


def main():
    failures = []
    with tempfile.TemporaryDirectory() as folder:
        root = pathlib.Path(folder)
        for place, text in FILES.items():
            (root / place).parent.mkdir(parents=True, exist_ok=True)
            (root / place).write_text(text, encoding="utf-8")
        page = root / "README.md"
        page.write_text(RIGHT, encoding="utf-8")
        failures += [f"README.md with right names: {line}" for line in docs.faults(folder)]
        for wrong in WRONG:
            page.write_text(f"right\n{wrong}\n", encoding="utf-8")
            lines = docs.faults(folder)
            if len(lines) != 1 or not lines[0].startswith("README.md:2: "):
                failures.append(f"README.md with {wrong} in line 2: {lines}")
        page.write_text("right\n", encoding="utf-8")
        for changes in ["docs/CHANGES.md", "docs/changes/1.md", "docs/PORT.md", "docs/DESIGN-PASS.md"]:
            (root / changes).parent.mkdir(exist_ok=True)
            (root / changes).write_text("`gone` crates/gone\n" + "x" * 121, encoding="utf-8")
            lines = docs.faults(folder)
            if len(lines) != 1 or not lines[0].startswith(f"{changes}:2: 121 columns"):
                failures.append(f"{changes}, with names that are gone and a long line: {lines}")
            (root / changes).unlink()
        (root / "docs/ARCHITECTURE.md").write_text("`walk`\n", encoding="utf-8")
        if not any("lacks a stanza of the crate" in line for line in docs.faults(folder)):
            failures.append("docs/ARCHITECTURE.md without a crate's stanza: nothing is said of it")
        for place in ["README.md", "docs/ARCHITECTURE.md"]:
            (root / place).unlink()
        if not docs.faults(folder):
            failures.append("a repository without pages: nothing is said of it")
    for failure in failures:
        print(f"docs_test.py: {failure}")
    return 1 if failures else 0


if __name__ == "__main__":
    sys.exit(main())
