#!/usr/bin/env python3
"""Finds names in the docs that are nowhere in the sources, crates that no page describes, and lines that are too long.

    python3 conformance/gate/docs.py [FOLDER]

FOLDER is the repository. The docs are README.md and docs/*.md. A name is what stands in backquotes there: a file or a
folder, a function, a type, a definition, a law, a must-fail edit, a make target, an example of the sources. With `::`
or a dot it has to be defined in the crate, file or module that is named before it. Words that are no names are listed
below. Paths are looked at outside backquotes too. A page of changes, and those of the port
and of the pass over the design, may name what is gone.
docs_test.py gives it names that are wrong.
"""

import fnmatch
import os
import pathlib
import re
import sys

COLUMNS = 120

# words in backquotes that are no names of ours: the languages', the toolchain's, the protocol's, the shell's
ALLOWED = set(
    """
    requires ensures unfolding unfoldable abbrev refl rw split omega usize u8 const match read write memchr ptr
    read_to_end Read Write args loop rattle-kit-5b rattle-kit-13f
    allow disallow user-agent sitemap drydockbot ExampleBot another-bot
    g++ gcc python3 pkg-config cargo rustup -lrobots --release -O3
    < <= file: old: new: stdin stdout
    """.split()
)

# the first word of a command; of the others only paths are looked at, and make's targets
COMMANDS = {"make", "rt", "gcc", "cargo", "sh", "grep", "head", "python3", "import"}

# files that are made, and so may be missing
MADE = ("target/", "librobots.a", "librobots.so", "robots.pc", "Lts.antt")
# what rt makes of a crate is in its folder out/
OUT = re.compile(r"crates/(\w+)/out(?:/\1|/lib\1\.a)?|out")
TEXTS = (".rt", ".antt", ".rs", ".c", ".h", ".py", ".sh", ".md", ".txt", ".toml", ".edit", ".in")
PLACEHOLDER = re.compile(r"\b(?:NAME|FILE|FUNCTION|CRATE|EDIT|LAW|PATH)\b")


def uncommented(text, mark):
    return re.sub(rf"(?m){mark}.*$", "", text)


def antt(text):
    """Definitions, laws, fields and constructors: a name, perhaps with parameters, and a type; and sets of rules."""
    typed = r"(?m)^ *(?:(?:abbrev|unfoldable|pub) )*(?:(?:record|data) )?([^\s():,{}=]+)(?: \([^)]*\)| \{[^}]*\})* : "
    text = uncommented(text, "--")
    return re.findall(typed, text) + re.findall(r"(?m)^ *(?:pub )?ruleset (\S+)", text)


def rattle(text):
    text = uncommented(text, "//")
    found = re.findall(r"\b(?:fn|struct|enum|const|mod|type)\s+(\w+)", text)
    for body in re.findall(r"(?ms)^\s*(?:pub )?(?:struct|enum) \w+(?:<[^>]*>)? \{(.*?)^\}", text):
        found += re.findall(r"(?m)^ +(?:pub )?(\w+)", body)
    return found


def tests(text):
    return re.findall(r"#\[test\]\s*(?:#\[[^\]]*\]\s*)*fn (\w+)", text)


def python(text):
    return re.findall(r"(?m)^ *(?:def|class) (\w+)", text) + re.findall(r"(?m)^(?: {4})?(\w+) = ", text)


def header(text):
    return re.findall(r"\w+", re.sub(r"(?s)/\*.*?\*/", "", text))


def makefile(text):
    return re.findall(r"(?m)^([\w-]+)\s*:", text) + re.findall(r"(?m)^([A-Z]+) *:?=", text)


def defined_in(place, text):
    """The names that a file defines."""
    if place.endswith(".antt"):
        return antt(text)
    if place.endswith(".rt") or (place.endswith(".rs") and place.startswith("bindings/")):
        return rattle(text)
    if place.endswith(".rs"):
        return tests(text)
    if place.endswith(".py"):
        return python(text)
    if place.endswith(".h"):
        return header(text)
    if place == "Makefile":
        return makefile(text)
    if place.startswith("conformance/examples/data/"):
        return re.findall(r"(?m)\b\d{3}-[\w-]+", text)
    return []


class Sources:
    """The files of the repository, and the names that each defines."""

    def __init__(self, folder):
        self.names = {}
        self.places = set()
        for above, folders, files in os.walk(folder):
            folders[:] = sorted(set(folders) - {"target", "out", ".git", "__pycache__"})
            for name in folders + sorted(files):
                path = pathlib.Path(above, name)
                place = path.relative_to(folder).as_posix()
                self.places.add(place)
                if name in files:
                    text = path.read_text(encoding="utf-8", errors="replace")
                    self.names[place] = set(defined_in(place, text))
        self.crates = {place.split("/")[1] for place in self.places if re.fullmatch(r"crates/\w+", place)}
        self.targets = self.names.get("Makefile", set())
        # a folder of proofs/ has the name of a function, which has to be in src/
        named = [place for place in self.places if place in self.names or "/proofs/" not in place]
        called = [pathlib.PurePosixPath(place) for place in named]
        self.all = {path.name for path in called}.union({path.stem for path in called}, *self.names.values())
        self.top = {place for place in self.places if "/" not in place}

    def has_path(self, path):
        """A file or folder, by its whole path or by the end of it, with or without .antt; NAME and * stand for any."""
        path = path.rstrip("/")
        path = path[2:] if path.startswith("./") else path
        made = OUT.fullmatch(path)
        if path.startswith(MADE) or made and made[1] in {None, *self.crates}:
            return True
        pattern = PLACEHOLDER.sub("*", path)
        if "*" not in pattern:
            ends = (path, path + ".antt")
            return any(place in ends or place.endswith(tuple("/" + end for end in ends)) for place in self.places)
        return any(fnmatch.fnmatchcase("/" + place, "*/" + pattern) for place in self.places)

    def in_module(self, module, name):
        """A name in a file of that name, in a folder of that name, or in an enum."""
        for place, names in self.names.items():
            parts = place.split("/")
            where = {pathlib.PurePosixPath(place).stem, *parts[:-1]}
            if module in where and name in names:
                return True
            if module in names and name in names:
                return True
        return False

    def has_qualified(self, parts):
        """crate::file::name, file::name, crate::name, Enum::Variant: the name stands in what is before it."""
        crate, *file, name = parts
        if crate not in self.crates:
            return not file and self.in_module(crate, name)
        # the binding in Rust is called robots too
        folders = (f"crates/{crate}/src/", "bindings/rust/src/") if crate == "robots" else (f"crates/{crate}/src/",)
        inside = [place for place in self.names if place.startswith(folders)]
        if file:
            inside = [place for place in inside if pathlib.PurePosixPath(place).stem == file[0]]
        return any(name in self.names[place] for place in inside)

    def has_word(self, word):
        if word in ALLOWED or word in self.all:
            return True
        if ".." in word:
            pattern = re.sub(r"\.\.+", "*", word)
            return any(fnmatch.fnmatchcase(name, pattern) for name in self.all)
        if word.startswith("_"):
            return any(name.endswith(word) for name in self.all)
        if word.endswith(("_", "-")):
            return any(name.startswith(word) for name in self.all)
        return False


def is_value(span):
    """What the protocol is given: a path, a pattern, an escape, a number, an address, a line with its field."""
    if re.match(r"\d{3}-", span):
        return False
    return len(span) <= 2 or bool(re.match(r"""[/%*"'$\[\d-]|\w[\w-]*: """, span)) or "%" in span or "://" in span


def missing(sources, span):
    """Yields the names in a span in backquotes that are nowhere in the sources."""
    words = span.split()
    if span in ALLOWED or not words:
        return
    if words[0] in COMMANDS or words[0].startswith("bin/"):
        if words[0] == "make" and len(words) > 1 and "=" not in words[1] and words[1] not in sources.targets:
            yield f"make {words[1]}"
        return
    if is_value(span):
        return
    head = re.sub(r"\(.*\)$|\[.*\]$", "", span) if re.match(r"[\w:.]+[(\[]", span) else span
    if " " in head:
        # an expression or a sentence: only what can be nothing but a name
        for word in re.findall(r"[A-Za-z][\w:]*", head):
            named = "::" in word or "_" in word.strip("_") or re.search(r"[a-z][A-Z]", word)
            if named and not exists(sources, word.strip(":")):
                yield word
        return
    if not exists(sources, head):
        yield head


def exists(sources, word):
    if word in ALLOWED:
        return True
    if "/" in word:
        return sources.has_path(word)
    if "::" in word:
        return sources.has_qualified(word.split("::"))
    if word.endswith(TEXTS) or word.startswith(MADE):
        return sources.has_path(word)
    if re.match(r"[a-z]\.", word):
        # a field of what has a name for a few lines only
        return True
    if "." in word.strip("."):
        *before, name = [part for part in word.split(".") if part]
        return not before or sources.in_module(before[-1], name) or sources.has_word(word)
    return bool(PLACEHOLDER.fullmatch(word)) or sources.has_word(word)


def paths_outside(sources, line):
    """Yields paths that stand in plain text or in a block of code, and begin with a folder of the repository."""
    for path in re.findall(r"(?<![\w/.@-])((?:[\w.-]+/)+[\w.*-]*\w)", re.sub(r"`[^`]*`", "", line)):
        if path.split("/")[0] in sources.top and not sources.has_path(path):
            yield path


def page_lines(sources, place, text):
    """Yields a line for each name in a page that is nowhere, and for each line that is too long."""
    told_of_changes = "changes" in place.lower() or place in ("docs/PORT.md", "docs/DESIGN-PASS.md")
    for number, line in enumerate(text.splitlines(), 1):
        found = [] if told_of_changes else list(paths_outside(sources, line))
        if not told_of_changes and not line.startswith("    "):
            for span in re.findall(r"`([^`]+)`", line):
                found += missing(sources, span)
            if line.count("`") % 2:
                yield f"{place}:{number}: a backquote is open at the end of the line, so no name can be read there"
        for name in found:
            yield f"{place}:{number}: {name} is nowhere in the sources"
        if len(line) > COLUMNS:
            yield f"{place}:{number}: {len(line)} columns, and {COLUMNS} are the most"


def faults(folder):
    root = pathlib.Path(folder)
    sources = Sources(root)
    pages = [page for page in [root / "README.md", *sorted(root.glob("docs/**/*.md"))] if page.is_file()]
    if not pages:
        return ["README.md and docs/: there is no page"]
    lines = []
    for page in pages:
        lines += page_lines(sources, page.relative_to(root).as_posix(), page.read_text(encoding="utf-8"))
    layers = root / "docs/ARCHITECTURE.md"
    told = layers.read_text(encoding="utf-8") if layers.is_file() else ""
    for crate in sorted(sources.crates):
        if f"\n- `{crate}`: " not in told:
            lines.append(f"docs/ARCHITECTURE.md: lacks a stanza of the crate, that begins with '- `{crate}`: '")
    return lines


def main():
    if len(sys.argv) > 2:
        sys.exit("docs.py: give it no argument, or a folder")
    lines = faults(sys.argv[1] if len(sys.argv) == 2 else pathlib.Path(__file__).resolve().parents[2])
    print(*lines, sep="\n", end="\n" if lines else "")
    return 1 if lines else 0


if __name__ == "__main__":
    sys.exit(main())
